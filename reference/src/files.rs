//! The stored set of files, and what checking them gives.
//!
//! The files are kept as instructions of three bytes that make them out of a
//! few records, since most of their bytes are alike:
//!
//! - 0, 0, 0: the file is whole, and the next one begins
//! - 1, n, 0: one more record, the n-th of the kept ones, and a line feed
//! - 2, c, b: the byte b in column c of the last record
//! - 3, k, 0: the last k bytes taken away
//! - 4, b, 0: one more byte
//! - 5, 0, 0: behind a 0, 0, 0: the file begins as all of the one before it

use crate::cases::{Dice, CONTINUATION, LEG};
use crate::file::{check, LINE};
use crate::legs::{may_begin, terminators, ROUTE_KINDS};
use crate::Stored;

/// The stored set of files and the answers.
pub fn stored_files() -> [Stored; 3] {
    let set = all();
    [
        ("../crates/vectors_file/data/bases.bin", bases().concat()),
        ("../crates/vectors_file/data/files.bin", instructions(&set)),
        ("../crates/vectors_file/stdout", answers(&set).into_bytes()),
    ]
}

fn answers(set: &[Vec<u8>]) -> String {
    set.iter()
        .map(|file| match check(file) {
            Ok(()) => "yes\n".to_string(),
            Err(refusal) => format!("no\t{}\t{}\t{}\n", refusal.number, refusal.place, refusal.column),
        })
        .collect()
}

// ---- instructions

/// The records that the instructions build on, each of 132 bytes.
fn bases() -> Vec<Vec<u8>> {
    [LEG, CONTINUATION].map(|base| changed(&base.as_bytes()[..LINE - 1], &[MISSED_APPROACH])).to_vec()
}

/// What makes the files, each from nothing or out of the one before it, as it
/// is shorter.
fn instructions(files: &[Vec<u8>]) -> Vec<u8> {
    let mut made = Vec::new();
    let mut before: &[u8] = &[];
    for file in files {
        let from_nothing = lines(file);
        let shared =
            file.chunks(LINE).zip(before.chunks(LINE)).take_while(|(one, other)| one == other).count() * LINE;
        let shared = shared.min(file.len()).min(before.len());
        let mut out_of_it = vec![5, 0, 0];
        out_of_it.extend(before[shared..].chunks(255).flat_map(|taken| [3, taken.len() as u8, 0]));
        out_of_it.extend(lines(&file[shared..]));
        made.extend(if from_nothing.len() <= out_of_it.len() { from_nothing } else { out_of_it });
        made.extend([0, 0, 0]);
        before = file;
    }
    made
}

/// What makes these lines: each out of the record that is most like it, or
/// byte by byte where that is shorter.
fn lines(bytes: &[u8]) -> Vec<u8> {
    let bases: Vec<Vec<u8>> = bases().into_iter().map(|base| [base, vec![b'\n']].concat()).collect();
    let mut made = Vec::new();
    for line in bytes.chunks(LINE) {
        let differing =
            |base: &Vec<u8>| (0..line.len()).filter(|at| base[*at] != line[*at]).collect::<Vec<_>>();
        let (n, columns) = bases
            .iter()
            .map(differing)
            .enumerate()
            .min_by_key(|(_, columns)| columns.len())
            .expect("there are bases");
        if columns.len() + 2 < line.len() {
            made.extend([1, n as u8, 0]);
            made.extend(columns.iter().flat_map(|at| [2, *at as u8 + 1, line[*at]]));
            if line.len() < LINE {
                made.extend([3, (LINE - line.len()) as u8, 0]);
            }
        } else {
            made.extend(line.iter().flat_map(|byte| [4, *byte, 0]));
        }
    }
    made
}

/// The files that instructions make.
pub fn made_by(instructions: &[u8]) -> Vec<Vec<u8>> {
    let bases = bases();
    let mut files = Vec::new();
    let mut file: Vec<u8> = Vec::new();
    for instruction in instructions.chunks(3) {
        match *instruction {
            [0, ..] => files.push(std::mem::take(&mut file)),
            [1, n, _] => {
                file.extend(&bases[n as usize]);
                file.push(b'\n');
            }
            [2, column, byte] => {
                let first = file.len() - LINE;
                file[first + column as usize - 1] = byte;
            }
            [3, count, _] => file.truncate(file.len() - count as usize),
            [4, byte, _] => file.push(byte),
            [5, ..] => file = files.last().cloned().unwrap_or_default(),
            _ => panic!("no such instruction: {instruction:?}"),
        }
    }
    files
}

// ---- records

pub(crate) type Change<'a> = (usize, &'a str);

/// The route type that all records have where nothing else is said: of its legs
/// a CF may begin a route, go on with it and end it.
const MISSED_APPROACH: Change = (20, "Z");

pub(crate) fn changed(base: &[u8], changes: &[Change]) -> Vec<u8> {
    let mut record = base.to_vec();
    for (first, bytes) in changes {
        record[first - 1..first - 1 + bytes.len()].copy_from_slice(bytes.as_bytes());
    }
    record
}

/// A good leg with a sequence number, and its line feed.
pub(crate) fn leg(sequence: usize, changes: &[Change]) -> Vec<u8> {
    changed(&changed(LEG.as_bytes(), &[MISSED_APPROACH, (27, &format!("{sequence:03}"))]), changes)
}

/// A good continuation of that leg with a continuation number.
pub(crate) fn continuation(sequence: usize, number: char, changes: &[Change]) -> Vec<u8> {
    let own: [Change; 3] = [MISSED_APPROACH, (27, &format!("{sequence:03}")), (39, &number.to_string())];
    changed(&changed(CONTINUATION.as_bytes(), &own), changes)
}

/// Legs of one route, one after the other.
fn legs(count: usize) -> Vec<Vec<u8>> {
    (1..=count).map(|n| leg(n, &[])).collect()
}

/// A route with these terminators. Its subsection and route type are two letters.
fn route(kind: &str, terminators: &[&str]) -> Vec<u8> {
    let (subsection, route_type) = kind.split_at(1);
    let leg =
        |(sequence, name): (usize, &&str)| leg(sequence, &[(13, subsection), (20, route_type), (48, name)]);
    (30..).zip(terminators).flat_map(leg).collect()
}

/// Five good records: a leg with two continuations, and two legs.
fn five() -> Vec<Vec<u8>> {
    vec![
        leg(10, &[(39, "1")]),
        continuation(10, '2', &[]),
        continuation(10, '3', &[]),
        leg(20, &[]),
        leg(30, &[]),
    ]
}

// ---- the set

/// All files in order.
pub fn all() -> Vec<Vec<u8>> {
    let mut files = Vec::new();
    sizes(&mut files);
    continued(&mut files);
    routes(&mut files);
    pairs(&mut files);
    beginnings_and_endings(&mut files);
    last_legs(&mut files);
    last_legs_and_faults(&mut files);
    each_refusal(&mut files);
    several_faults(&mut files);
    cuts(&mut files);
    damaged(&mut files);
    bad_bytes(&mut files);
    files
}

/// From the empty file to 480 records, and past them.
fn sizes(files: &mut Vec<Vec<u8>>) {
    for count in (0..=6).chain([479, 480, 481]) {
        files.push(legs(count).concat());
    }
    let full = legs(480).concat();
    files.push([full.clone(), b"S".to_vec()].concat());
    files.push([full[..full.len() - 1].to_vec(), b"XS".to_vec()].concat());
    files.push(full[..full.len() - 1].to_vec());
    files.push([full[..full.len() - 1].to_vec(), b" ".to_vec()].concat());
    files.push([legs(479), vec![leg(479, &[])]].concat().concat());
    for bytes in ["\n", "S", "\0", "SU", "SUSAP KSEA"] {
        files.push(bytes.as_bytes().to_vec());
    }
}

/// Continuations: all 34 in a row, one too many, gaps, other heads.
fn continued(files: &mut Vec<Vec<u8>>) {
    let numbers: Vec<char> = ('2'..='9').chain('A'..='Z').collect();
    let opening = leg(10, &[(39, "1")]);
    for count in [0, 1, 2, 8, 9, 33, 34] {
        let run: Vec<Vec<u8>> =
            numbers[..count].iter().map(|number| continuation(10, *number, &[])).collect();
        let run = [vec![opening.clone()], run].concat();
        files.push(run.concat());
        files.push([run.clone(), vec![leg(20, &[])]].concat().concat());
        for number in ['2', '9', 'A', 'Z'] {
            files.push([run.clone(), vec![continuation(10, number, &[])]].concat().concat());
        }
    }
    for column in [1, 2, 13, 20, 25, 29, 30, 38] {
        let other = match column {
            1 => "T",
            13 => "D",
            20 | 38 => "B",
            29 => "1",
            _ => "Q",
        };
        files.push([opening.clone(), continuation(10, '2', &[(column, other)])].concat());
        files.push(
            [opening.clone(), continuation(10, '2', &[]), continuation(10, '3', &[(column, other)])].concat(),
        );
    }
    let none = leg(10, &[]);
    files.push([none.clone(), continuation(10, '2', &[])].concat());
    files.push([none, continuation(20, '2', &[])].concat());
    files.push([opening.clone(), continuation(20, '3', &[])].concat());
    files.push(continuation(10, '2', &[]));
    files.push([opening, leg(5, &[(1, "A")])].concat());
}

/// Routes that rise, fall, come twice and are mixed; sequence numbers that
/// rise, stay and fall.
fn routes(files: &mut Vec<Vec<u8>>) {
    let of = |transition: &str, sequence: usize| leg(sequence, &[(21, transition)]);
    let orders: &[&[(&str, usize)]] = &[
        &[("AAA  ", 10), ("BBB  ", 10), ("CCC  ", 10)],
        &[("AAA  ", 20), ("BBB  ", 10), ("CCC  ", 5)],
        &[("BBB  ", 10), ("AAA  ", 20)],
        &[("AAA  ", 10), ("BBB  ", 10), ("AAA  ", 20)],
        &[("AAA  ", 10), ("AAA  ", 20), ("BBB  ", 10), ("BBB  ", 20)],
        &[("AAA  ", 10), ("BBB  ", 10), ("AAA  ", 20), ("BBB  ", 20)],
        &[("AAA  ", 10), ("BBB  ", 10), ("BBB  ", 10), ("CCC  ", 10)],
        &[("AAA  ", 10), ("AAA  ", 10)],
        &[("AAA  ", 10), ("AAA  ", 9)],
        &[("AAA  ", 99), ("AAA  ", 100)],
        &[("AAA  ", 999), ("AAA  ", 1)],
        &[("     ", 10), ("AAA  ", 10)],
        &[("AAA  ", 10), ("     ", 10)],
        &[("AAA  ", 10), ("AAAA ", 10)],
        &[("AAA  ", 10), ("AAA1 ", 10)],
        &[("AAA1 ", 10), ("AAAA ", 10)],
        &[("AAA- ", 10), ("AAA1 ", 10)],
        &[("AAA1 ", 10), ("AAA- ", 10)],
    ];
    for order in orders {
        files.push(
            order.iter().map(|(transition, sequence)| of(transition, *sequence)).collect::<Vec<_>>().concat(),
        );
    }
    // The first column that differs decides, and 26 is none of a route.
    files.push([leg(10, &[]), leg(10, &[(1, "T"), (21, "     ")])].concat());
    files.push([leg(10, &[(1, "T")]), leg(20, &[])].concat());
    files.push([leg(10, &[]), leg(20, &[(124, "00001")])].concat());
    files.push([leg(10, &[]), leg(20, &[(26, "A")])].concat());
}

/// Every ordered pair, in a route that is good before and behind it.
fn pairs(files: &mut Vec<Vec<u8>>) {
    for first in terminators() {
        let (kind, before): (_, &[&str]) = match first {
            "IF" => ("FI", &[]),
            "HF" | "PI" | "TF" => ("FZ", &["CF"]),
            _ => ("FZ", &[]),
        };
        for second in terminators() {
            files.push(route(kind, &[before, &[first, second, "CF"]].concat()));
        }
    }
    // A fix may stand behind a fix alone: not where rule 3.12 has one.
    for terminators in ["IF IF IF TF", "IF IF", "IF TF IF", "VI IF TF", "IF VI IF TF", "CF IF TF"] {
        for kind in ["D2", "E2", "FI"] {
            files.push(route(kind, &terminators.split(' ').collect::<Vec<_>>()));
        }
    }
}

/// The subsection and route type of some kind of route, by the number of its row:
/// another one of the row with each turn.
fn kind_in_turn(row: usize, turn: usize) -> String {
    let kind = &ROUTE_KINDS[row];
    let types: Vec<&str> = kind.route_types.split(' ').collect();
    [kind.subsection, types[turn % types.len()]].concat()
}

/// In each of the nine rows every terminator first, last, and alone.
fn beginnings_and_endings(files: &mut Vec<Vec<u8>>) {
    for row in 0..ROUTE_KINDS.len() {
        let opening = if may_begin(row, "IF") { "IF" } else { "CF" };
        for (turn, name) in terminators().enumerate() {
            let kind = kind_in_turn(row, turn);
            files.push(route(&kind, &[name]));
            files.push(route(&kind, &[name, "CF"]));
            files.push(route(&kind, &[opening, name]));
        }
    }
    // Two routes that tell the rows of a subsection from each other, for every route type.
    let telling = [("D", ["IF CF", "CA CF"]), ("E", ["HF CF", "IF IF"]), ("F", ["CA CF", "FC CF"])];
    for (subsection, routes) in telling {
        for kind in ROUTE_KINDS.iter().filter(|kind| kind.subsection == subsection) {
            for route_type in kind.route_types.split(' ') {
                for terminators in routes {
                    let names: Vec<&str> = terminators.split(' ').collect();
                    files.push(route(&[subsection, route_type].concat(), &names));
                }
            }
        }
    }
}

/// A leg that may not end its route, and one that may, before all that can lie
/// behind them: continuations of every number, other routes, pieces without a
/// line feed and short tails.
fn last_legs(files: &mut Vec<Vec<u8>>) {
    let next = leg(20, &[]);
    let [two, three, nine] = ['2', '3', '9'].map(|number| continuation(10, number, &[]));
    let all: Vec<u8> = ('2'..='9').chain('A'..='Z').flat_map(|n| continuation(10, n, &[])).collect();
    let other_sequence = continuation(30, '2', &[]);
    let other_route = |record: &[u8]| changed(record, &[(25, "Q")]);
    let no_feed = |record: &[u8]| changed(record, &[(133, " ")]);
    let mut behind: Vec<Vec<u8>> = vec![
        vec![],
        next.clone(),
        two.clone(),
        three.clone(),
        nine.clone(),
        other_sequence.clone(),
        [&two[..], &three].concat(),
        [&two[..], &two, &nine].concat(),
        [&two[..], &next].concat(),
        [&nine[..], &next].concat(),
        [&other_sequence[..], &next].concat(),
        [&two[..], &three, &nine, &nine, &next].concat(),
        all.clone(),
        [&all[..], &next].concat(),
        // A second leg that may not end the route either.
        leg(20, &[(48, "CI")]),
        [leg(20, &[(39, "1"), (48, "CI")]), continuation(20, '2', &[])].concat(),
        // Other routes, and a continuation of one.
        other_route(&next),
        other_route(&two),
        [other_route(&two), next.clone()].concat(),
        [&two[..], &other_route(&three), &next].concat(),
        [&two[..], &other_route(&next)].concat(),
        // Pieces without a line feed.
        no_feed(&next),
        no_feed(&two),
        no_feed(&nine),
        no_feed(&other_route(&next)),
        no_feed(&other_route(&two)),
        [no_feed(&two), next.clone()].concat(),
        [no_feed(&two), no_feed(&three)].concat(),
        [no_feed(&two), no_feed(&next)].concat(),
        [no_feed(&two), other_route(&next)].concat(),
        [no_feed(&other_route(&two)), next.clone()].concat(),
        [&two[..], &no_feed(&three), &no_feed(&next)].concat(),
        [no_feed(&two), next[..132].to_vec()].concat(),
        vec![b' '; LINE],
        vec![b'\n'; LINE],
    ];
    // Column 39 with the number of neither kind is that of a primary, and so are 0 and 1.
    behind.extend(["x", ":", " ", "@", "[", "/"].map(|number| leg(20, &[(39, number)])));
    // Whatever is wrong with a record of the route behind, the leg is not the last.
    behind.extend(faults().iter().map(|(_, changes)| changed(&next, changes)));
    for length in [1, 24, 25, 26, 38, 39, 49, 131, 132] {
        behind.push(next[..length].to_vec());
        behind.push([&two[..], &next[..length]].concat());
        behind.push([&two[..], &three[..length]].concat());
    }
    // The first column in which the next record differs.
    let others =
        [(1, "T"), (2, "V"), (4, "B"), (7, "L"), (10, "B"), (11, "L"), (12, "2"), (14, "J"), (19, "Z")];
    behind.extend(others.map(|change| changed(&next, &[change])));
    behind.extend(
        [(21, "F"), (25, "B"), (26, "A"), (27, "9"), (30, "X")].map(|change| changed(&next, &[change])),
    );
    for terminator in ["CI", "CF"] {
        let last = leg(10, &[(39, "1"), (48, terminator)]);
        files.extend(behind.iter().map(|behind| [&last[..], behind].concat()));
        // The same behind a leg that wants no continuation, for the first of them.
        let last = leg(10, &[(48, terminator)]);
        files.extend(behind[..12].iter().map(|behind| [&last[..], behind].concat()));
    }
}

/// A last leg that may not end its route beside another fault: at its own record,
/// at the next one and at the one before.
fn last_legs_and_faults(files: &mut Vec<Vec<u8>>) {
    let of =
        |transition: &'static str, terminator: &'static str| leg(20, &[(21, transition), (48, terminator)]);
    for (_, changes) in faults() {
        let bad_last = changed(&of("BBB  ", "CI"), &changes);
        files.push(bad_last.clone());
        files.push([leg(10, &[(21, "BBB  ")]), bad_last].concat());
        for terminator in ["CI", "CF"] {
            let last = of("BBB  ", terminator);
            files.push([last.clone(), changed(&of("CCC  ", "CF"), &changes)].concat());
            files.push([changed(&of("AAA  ", "CF"), &changes), last].concat());
        }
    }
    // Lower routes behind it, and a leg that may neither follow nor end.
    files.push([of("BBB  ", "CI"), of("AAA  ", "CF")].concat());
    files.push([of("BBB  ", "CF"), of("AAA  ", "CI")].concat());
    for terminators in [["CA", "FC"], ["CF", "FC"], ["CA", "HF"], ["CF", "HF"], ["CI", "IF"], ["TF", "CI"]] {
        files.push(route("FZ", &terminators));
        files.push([route("FZ", &terminators), of("ZZZ  ", "CF")].concat());
    }
    // A leg alone that may neither begin nor end, one that may not begin, one that may not end.
    for (kind, name) in [("FI", "CD"), ("FI", "CF"), ("FI", "IF"), ("D3", "IF"), ("E1", "IF"), ("FZ", "TF")] {
        files.push(route(kind, &[name]));
        files.push([route(kind, &[name]), of("ZZZ  ", "TF")].concat());
    }
}

/// A fault of each stage, as changes to a leg.
pub(crate) fn faults() -> Vec<(u8, Vec<Change<'static>>)> {
    vec![
        (1, vec![(133, " ")]),
        (3, vec![(63, "3601")]),
        (4, vec![(35, "  ")]),
        (5, vec![(71, "    ")]),
        (6, vec![(39, "2"), (40, " ")]),
        (7, vec![(27, "001")]),
        (8, vec![(48, "IF")]),
    ]
}

/// Each refusal at the first, a middle and the last record.
fn each_refusal(files: &mut Vec<Vec<u8>>) {
    for (_, changes) in faults() {
        for at in 0..5 {
            let mut records = five();
            records[at] = changed(&records[at], &changes);
            files.push(records.concat());
            let mut records = legs(5);
            records[at] = changed(&records[at], &changes);
            files.push(records.concat());
        }
    }
    files.push([legs(4), vec![leg(5, &[(39, "1")])]].concat().concat());
    files.push([vec![leg(1, &[(48, "TF")])], legs(4)].concat().concat());
    files.push([legs(2), vec![leg(3, &[(48, "CA")]), leg(4, &[(48, "TF")])]].concat().concat());
}

/// Faults of several stages in one record, and of two stages in two records in
/// either order.
fn several_faults(files: &mut Vec<Vec<u8>>) {
    let faults = faults();
    for (one, changes) in &faults {
        for (other, more) in &faults {
            if one < other {
                let mut records = legs(5);
                records[2] = changed(&changed(&records[2], changes), more);
                files.push(records.concat());
            }
            if one != other {
                let mut records = legs(5);
                records[1] = changed(&records[1], changes);
                records[3] = changed(&records[3], more);
                files.push(records.concat());
            }
        }
    }
    let all = faults.iter().fold(leg(5, &[]), |record, (_, changes)| changed(&record, changes));
    files.push([legs(4), vec![all]].concat().concat());
    // 6 before 7 before 8, and the number of a continuation before its head.
    files.push([leg(10, &[(39, "1")]), leg(5, &[(48, "IF")])].concat());
    files.push([leg(10, &[]), leg(5, &[(48, "IF")])].concat());
    files.push([leg(10, &[(39, "1")]), continuation(20, '3', &[(1, "T")])].concat());
}

/// The last record cut at every length, behind one that has all it needs and
/// behind one whose continuation is to come.
fn cuts(files: &mut Vec<Vec<u8>>) {
    for length in 0..LINE {
        files.push([leg(10, &[]), leg(20, &[])[..length].to_vec()].concat());
    }
    for length in [0, 1, 38, 39, 132] {
        files.push([leg(10, &[(39, "1")]), continuation(10, '2', &[])[..length].to_vec()].concat());
    }
    for (place, byte) in [(0, "\r"), (1, " "), (4, "\0"), (4, "S")] {
        let mut records = five();
        records[place] = changed(&records[place], &[(133, byte)]);
        files.push(records.concat());
    }
    // Without its line feed a record moves all that follow.
    files.push([leg(10, &[])[..132].to_vec(), leg(20, &[]), leg(30, &[])].concat());
    files.push([leg(10, &[]), leg(20, &[])[..131].to_vec(), b"\n".to_vec(), leg(30, &[])].concat());
}

/// Files of five records, put in another order or with a byte or two changed
/// in the columns that records are compared by.
fn damaged(files: &mut Vec<Vec<u8>>) {
    const LIKELY: &[u8] = b"0123456789ABEFST ";
    let mut dice = Dice(0x524f_5554_4553_3034);
    for _ in 0..100 {
        let mut records = if dice.below(2) == 0 { five() } else { legs(5) };
        if dice.below(2) == 0 {
            let (one, other) = (dice.below(5), dice.below(5));
            records.swap(one, other);
        }
        for _ in 0..dice.below(3) {
            let record = &mut records[dice.below(5)];
            let at = match dice.below(3) {
                0 => 20 + dice.below(9),
                1 => 38,
                _ => dice.below(LINE),
            };
            record[at] = LIKELY[dice.below(LIKELY.len())];
        }
        files.push(records.concat());
    }
}

/// Content that goes wrong at a later byte of its field, in a leg and in a
/// continuation.
fn bad_bytes(files: &mut Vec<Vec<u8>>) {
    let contents = [(2, "A 1"), (27, "01 "), (48, "CX"), (71, "361T"), (85, "1500 "), (129, "2114")];
    for change in contents {
        let mut records = legs(5);
        records[1] = changed(&records[1], &[change]);
        files.push(records.concat());
    }
    for change in [(83, "\u{1f}"), (128, " ")] {
        let mut records = five();
        records[2] = changed(&records[2], &[change]);
        files.push(records.concat());
    }
}
