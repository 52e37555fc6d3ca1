//! The stored set of picks: a frozen file, a log, wanted numbers and a lent
//! buffer each.

use crate::cases::Dice;
use crate::file::LINE;
use crate::files;
use crate::files::{changed, Change};
use crate::pick::{check_log, ROOM};
use crate::random_picks::{few_routes, random_case};
use crate::Refusal;

#[derive(Clone, Debug, PartialEq, Eq)]
pub struct Case {
    pub frozen: Vec<u8>,
    pub log: Vec<u8>,
    pub wanted: Vec<u32>,
    /// The bytes of the lent buffer.
    pub room: usize,
}

/// All cases in order, by what they are there for.
pub fn groups() -> Vec<(&'static str, Vec<Case>)> {
    vec![
        ("the requirement's own", requirement()),
        ("chains", chains()),
        ("diamonds", diamonds()),
        ("routes and places", routes_and_places()),
        ("cancelled lines", cancelled()),
        ("removed and made anew", made_anew()),
        ("continuations", continued()),
        ("many routes or no lines", many_or_none()),
        ("200 corrections on one route", one_route()),
        ("an older put-in leg not asked for", older_leg()),
        ("wanted lists", wanted_lists()),
        ("refused files", refused_files()),
        ("refused lines", refused_lines()),
        ("lines that do not apply", not_applying()),
        ("refused routes", refused_routes()),
        ("beginnings and endings", beginnings_and_endings()),
        ("limits of the log", limits()),
        ("lent buffers", rooms()),
        ("several faults", several_faults()),
        ("the largest", largest()),
        ("random", random()),
    ]
}

pub fn all() -> Vec<Case> {
    groups().into_iter().flat_map(|(_, cases)| cases).collect()
}

// ---- records, files, logs

/// The 132 bytes of a record.
pub(crate) type Record = Vec<u8>;

#[derive(Clone)]
pub(crate) enum Line {
    Out(Record),
    In(Record),
}

pub(crate) type Correction = Vec<Line>;

pub(crate) fn without_line_feed(mut line: Vec<u8>) -> Record {
    line.truncate(LINE - 1);
    line
}

/// A leg of the route with this transition. The version is its file record
/// number, which nothing is judged by.
pub(crate) fn leg_of(route: &str, sequence: usize, version: usize, terminator: &str) -> Record {
    let changes: [Change; 3] =
        [(21, &format!("{route:5}")), (48, terminator), (124, &format!("{version:05}"))];
    without_line_feed(files::leg(sequence, &changes))
}

/// A leg that may begin a route, follow and be followed by any of its kind, and
/// end the route.
pub(crate) fn leg(route: &str, sequence: usize, version: usize) -> Record {
    leg_of(route, sequence, version, "CF")
}

/// A leg whose continuations follow.
pub(crate) fn opening(route: &str, sequence: usize, version: usize) -> Record {
    changed(&leg(route, sequence, version), &[(39, "1")])
}

pub(crate) fn continuation(route: &str, sequence: usize, number: char, version: usize) -> Record {
    let changes: [Change; 2] = [(21, &format!("{route:5}")), (124, &format!("{version:05}"))];
    without_line_feed(files::continuation(sequence, number, &changes))
}

pub(crate) fn file(records: &[Record]) -> Vec<u8> {
    records.iter().flat_map(|record| [record.as_slice(), b"\n"].concat()).collect()
}

pub(crate) fn out(record: &Record) -> Line {
    Line::Out(record.clone())
}

pub(crate) fn put(record: &Record) -> Line {
    Line::In(record.clone())
}

pub(crate) fn replaced(old: &Record, new: &Record) -> Vec<Line> {
    vec![out(old), put(new)]
}

/// A leg that gets another version.
pub(crate) fn renewed(route: &str, sequence: usize, from: usize, to: usize) -> Vec<Line> {
    replaced(&leg(route, sequence, from), &leg(route, sequence, to))
}

fn line_bytes(line: &Line) -> Vec<u8> {
    match line {
        Line::Out(record) => [b"D\t", record.as_slice(), b"\n"].concat(),
        Line::In(record) => [b"A\t", record.as_slice(), b"\n"].concat(),
    }
}

pub(crate) fn headings(numbers: impl IntoIterator<Item = usize>) -> Vec<u8> {
    numbers.into_iter().flat_map(|number| format!("C\t{number}\n").into_bytes()).collect()
}

pub(crate) fn log(corrections: &[Correction]) -> Vec<u8> {
    let written = |(number, lines): (usize, &Correction)| {
        [headings([number]), lines.iter().flat_map(line_bytes).collect()].concat()
    };
    (1..).zip(corrections).flat_map(written).collect()
}

pub(crate) fn case(frozen: &[u8], log: &[u8], wanted: &[u32]) -> Case {
    Case { frozen: frozen.to_vec(), log: log.to_vec(), wanted: wanted.to_vec(), room: ROOM }
}

/// A case for each of these lists.
fn each(frozen: &[u8], log: &[u8], lists: &[&[u32]]) -> Vec<Case> {
    lists.iter().map(|wanted| case(frozen, log, wanted)).collect()
}

/// A case for each set of the first corrections.
fn each_subset(frozen: &[u8], log: &[u8], corrections: u32) -> Vec<Case> {
    let member = |set: u32, number: &u32| set >> (number - 1) & 1 == 1;
    let subsets = (0..1_u32 << corrections)
        .map(|set| (1..=corrections).filter(|number| member(set, number)).collect::<Vec<u32>>());
    subsets.map(|wanted| case(frozen, log, &wanted)).collect()
}

// ---- what relies on what

fn pqr() -> Vec<u8> {
    file(&[leg("P", 10, 0), leg("Q", 10, 0), leg("R", 10, 0)])
}

/// Corrections 1 on P, 2 on Q, 3 on P and R, 4 on Q, 5 on R.
fn five_corrections() -> Vec<Correction> {
    vec![
        renewed("P", 10, 0, 1),
        renewed("Q", 10, 0, 1),
        [renewed("P", 10, 1, 2), renewed("R", 10, 0, 1)].concat(),
        renewed("Q", 10, 1, 2),
        renewed("R", 10, 1, 2),
    ]
}

fn requirement() -> Vec<Case> {
    let log = log(&five_corrections());
    let named: [&[u32]; 4] = [&[5], &[4, 4], &[], &[6]];
    [each(&pqr(), &log, &named), each_subset(&pqr(), &log, 5)].concat()
}

/// Chains on one route, and ladders from route to route.
fn chains() -> Vec<Case> {
    let frozen = file(&[leg("P", 10, 0), leg("Q", 10, 0)]);
    let chain: Vec<Correction> = (0..6).map(|step| renewed("P", 10, step, step + 1)).collect();
    let mut cases = each(&frozen, &log(&chain), &[&[1], &[2], &[3], &[4], &[5], &[6], &[2, 5], &[6, 1]]);
    let names = ["K", "L", "M", "N", "O", "P", "Q"];
    let frozen = file(&names.map(|name| leg(name, 10, 0)));
    // Each step is the second on its first route and the first on its other.
    let step = |from: &str, to: &str| [renewed(from, 10, 1, 2), renewed(to, 10, 0, 1)].concat();
    for falling in [false, true] {
        let mut order = names;
        if falling {
            order.reverse();
        }
        let first = vec![renewed(order[0], 10, 0, 1)];
        let ladder: Vec<Correction> =
            first.into_iter().chain(order.windows(2).map(|pair| step(pair[0], pair[1]))).collect();
        let lists: [&[u32]; 6] = [&[7], &[4], &[1], &[2, 5], &[3, 3, 2], &[]];
        cases.extend(each(&frozen, &log(&ladder), &lists));
        // Corrections that share no route rely on none.
        let apart: Vec<Correction> = order.iter().map(|name| renewed(name, 10, 0, 1)).collect();
        cases.extend(each(&frozen, &log(&apart), &[&[7], &[1, 4]]));
    }
    cases
}

/// Two ways from one correction to another, and six of them.
fn diamonds() -> Vec<Case> {
    let both = |from, to| [renewed("P", 10, from, to), renewed("Q", 10, from, to)].concat();
    let diamond = vec![both(0, 1), renewed("P", 10, 1, 2), renewed("Q", 10, 1, 2), both(2, 3)];
    let mut cases = each_subset(&pqr(), &log(&diamond), 4);
    let names = ["K", "L", "M", "N", "O", "P"];
    let all = |from, to| names.iter().flat_map(|name| renewed(name, 10, from, to)).collect::<Correction>();
    let sides = names.iter().map(|name| renewed(name, 10, 1, 2));
    let wide: Vec<Correction> =
        [vec![all(0, 1)], sides.collect(), vec![all(2, 3)], vec![renewed("M", 10, 3, 4)]].concat();
    let frozen = file(&names.map(|name| leg(name, 10, 0)));
    cases.extend(each(&frozen, &log(&wide), &[&[1], &[2], &[7], &[3, 5], &[8], &[9], &[2, 9]]));
    // Ways of different lengths: 5 by R at once, and by Q and P.
    let uneven = vec![
        [renewed("P", 10, 0, 1), renewed("R", 10, 0, 1)].concat(),
        renewed("P", 10, 1, 2),
        [renewed("P", 10, 2, 3), renewed("Q", 10, 0, 1)].concat(),
        renewed("Q", 10, 1, 2),
        [renewed("Q", 10, 2, 3), renewed("R", 10, 1, 2)].concat(),
    ];
    cases.extend(each(&pqr(), &log(&uneven), &[&[1], &[2], &[3], &[4], &[5], &[4, 2]]));
    cases
}

/// One route with several places, and routes that differ in one column.
fn routes_and_places() -> Vec<Case> {
    let frozen = file(&[leg("P", 10, 0), leg("P", 20, 0), leg("P", 30, 0), leg("Q", 10, 0)]);
    let places = vec![
        renewed("P", 10, 0, 1),
        renewed("Q", 10, 0, 1),
        renewed("P", 20, 0, 1),
        vec![put(&leg("P", 25, 0))],
        renewed("P", 30, 0, 1),
        vec![out(&leg("Q", 10, 1))],
    ];
    let mut cases =
        each(&frozen, &log(&places), &[&[1], &[2], &[3], &[4], &[5], &[6], &[5, 6], &[2, 3], &[1, 2]]);
    let differing = [
        (1, "T"),
        (2, "V"),
        (4, "B"),
        (7, "L"),
        (10, "B"),
        (11, "L"),
        (12, "2"),
        (14, "J"),
        (19, "Y"),
        (20, "4"),
        (21, "Q"),
        (25, "Q"),
    ];
    for change in differing {
        // A departure of type 1, as there is one of type 4 too that is such a leg alone.
        let departure = |version| changed(&leg("PPPP", 10, version), &[(13, "D"), (20, "1")]);
        let (one, newer) = (departure(0), departure(1));
        let (other, other_newer) = (changed(&one, &[change]), changed(&newer, &[change]));
        let (front, back) = if one < other { (&one, &other) } else { (&other, &one) };
        let frozen = file(&[front.clone(), back.clone()]);
        let log = log(&[replaced(&one, &newer), replaced(&other, &other_newer)]);
        cases.push(case(&frozen, &log, &[2]));
    }
    // New places and routes in front of all, between and behind all.
    let several: Vec<Line> = [("Z", 10), ("PA", 20), ("PA", 10), ("A", 10), ("P", 40), ("P", 5), ("P", 15)]
        .map(|(route, sequence)| put(&leg(route, sequence, 2)))
        .to_vec();
    let one_by_one: Vec<Correction> = several.iter().map(|line| vec![line.clone()]).collect();
    cases.extend(each(&frozen, &log(&[several]), &[&[1], &[]]));
    cases.extend(each(&frozen, &log(&one_by_one), &[&[1], &[2], &[3], &[4], &[6], &[7], &[7, 3, 4, 1]]));
    cases
}

/// Put-ins that are taken out in the same correction, and the reverse.
fn cancelled() -> Vec<Case> {
    let frozen = file(&[leg("P", 10, 0), leg("Q", 10, 0)]);
    let there_and_back = |record: &Record| vec![put(record), out(record)];
    let (standing, absent) = (leg("P", 20, 1), leg("N", 10, 1));
    let garbage = vec![b'~'; LINE - 1];
    let other_garbage = changed(&garbage, &[(27, "ab")]);
    let again = |record: &Record| vec![out(record), put(record)];
    let sets: Vec<Vec<Correction>> = vec![
        vec![there_and_back(&standing), renewed("P", 10, 0, 1)],
        vec![there_and_back(&absent), vec![put(&leg("N", 20, 0))]],
        vec![[there_and_back(&standing), renewed("Q", 10, 0, 1)].concat(), renewed("P", 10, 0, 1)],
        vec![[there_and_back(&absent), renewed("Q", 10, 0, 1)].concat(), there_and_back(&absent)],
        vec![again(&leg("P", 10, 0)), renewed("Q", 10, 0, 1)],
        vec![again(&leg("P", 10, 0)), again(&leg("P", 10, 0))],
        vec![[again(&leg("Q", 10, 0)), again(&leg("Q", 10, 0))].concat(), again(&leg("P", 10, 0))],
        vec![[renewed("P", 10, 0, 1), renewed("P", 10, 1, 0)].concat(), renewed("P", 10, 0, 2)],
        vec![[there_and_back(&standing), vec![put(&standing)]].concat(), vec![out(&standing)]],
        vec![there_and_back(&garbage), there_and_back(&garbage)],
        vec![there_and_back(&garbage), there_and_back(&other_garbage)],
        vec![[there_and_back(&garbage), renewed("P", 10, 0, 1)].concat(), there_and_back(&other_garbage)],
        vec![there_and_back(&vec![b' '; LINE - 1]), renewed("P", 10, 0, 1)],
    ];
    sets.iter().flat_map(|set| each(&frozen, &log(set), &[&[1], &[2]])).collect()
}

/// Routes that are taken out whole and put in again.
fn made_anew() -> Vec<Case> {
    let old = [leg_of("P", 10, 0, "CF"), leg_of("P", 20, 0, "TF"), leg_of("P", 30, 0, "TF")];
    let new = [leg_of("P", 10, 1, "CF"), leg_of("P", 20, 1, "DF"), leg_of("P", 40, 1, "TF")];
    let frozen = file(&[vec![leg("O", 10, 0)], old.to_vec(), vec![leg("Q", 10, 0)]].concat());
    let outs = |records: &[Record]| records.iter().map(out).collect::<Correction>();
    let puts = |records: &[Record]| records.iter().map(put).collect::<Correction>();
    let mut falling = new.to_vec();
    falling.reverse();
    let sets: Vec<Vec<Correction>> = vec![
        vec![outs(&old), puts(&new), renewed("Q", 10, 0, 1)],
        vec![[outs(&old), puts(&falling)].concat(), outs(&new), puts(&old)],
        vec![outs(&old), [puts(&falling), vec![out(&leg("Q", 10, 0))]].concat(), vec![put(&leg("Q", 20, 1))]],
        vec![
            [outs(&old), vec![out(&leg("O", 10, 0)), out(&leg("Q", 10, 0))]].concat(),
            puts(&old),
            vec![put(&leg("O", 10, 0)), put(&leg("Q", 10, 1))],
        ],
        vec![vec![out(&old[2])], vec![out(&old[1])], vec![out(&old[0])]],
        vec![vec![out(&old[1])], vec![put(&old[1])], vec![out(&old[1]), put(&new[1])]],
    ];
    sets.iter().flat_map(|set| each(&frozen, &log(set), &[&[1], &[2], &[3], &[3, 1]])).collect()
}

/// Legs with continuations, which come and go as one.
fn continued() -> Vec<Case> {
    let old = [opening("P", 10, 0), continuation("P", 10, '2', 0), continuation("P", 10, '3', 0)];
    let frozen = file(&[old.to_vec(), vec![leg("P", 20, 0), leg("Q", 10, 0)]].concat());
    let fourth = continuation("P", 10, '4', 0);
    let new = [continuation("Q", 5, '3', 0), continuation("Q", 5, '2', 0), opening("Q", 5, 0)];
    let set = vec![
        vec![put(&fourth)],
        new.iter().map(put).collect(),
        replaced(&old[1], &continuation("P", 10, '2', 1)),
        vec![out(&new[0])],
        vec![out(&fourth), out(&old[2])],
        vec![out(&old[0]), out(&continuation("P", 10, '2', 1)), put(&leg("P", 10, 0))],
        vec![out(&new[2]), out(&new[1])],
    ];
    let lists: [&[u32]; 9] = [&[1], &[2], &[3], &[4], &[5], &[6], &[7], &[7, 1], &[6, 2]];
    let mut cases = each(&frozen, &log(&set), &lists);
    // Letters come behind the digits.
    let digits: Vec<Record> = ('2'..='9').map(|number| continuation("P", 10, number, 0)).collect();
    let letters: Vec<Record> = ('A'..='C').map(|number| continuation("P", 10, number, 0)).collect();
    let frozen = file(&[vec![opening("P", 10, 0)], digits.clone()].concat());
    let set = vec![
        letters.iter().rev().map(put).collect(),
        letters.iter().chain(&digits[7..]).map(out).collect(),
        [&letters[0], &digits[7]].map(put).to_vec(),
    ];
    cases.extend(each(&frozen, &log(&set), &[&[1], &[2], &[3]]));
    cases
}

/// A correction on twelve routes, and corrections with no lines.
fn many_or_none() -> Vec<Case> {
    let names: Vec<String> = ('A'..='L').map(|name| name.to_string()).collect();
    let frozen = file(&names.iter().map(|name| leg(name, 10, 0)).collect::<Vec<_>>());
    let on = |names: &[String], from, to| {
        names.iter().rev().flat_map(|name| renewed(name, 10, from, to)).collect::<Correction>()
    };
    let set = vec![
        on(&names, 0, 1),
        on(&names[4..5], 1, 2),
        [on(&names[6..7], 1, 2), on(&names[10..11], 1, 2)].concat(),
        vec![],
        on(&names[11..], 1, 2),
        [on(&names[..4], 1, 2), on(&names[4..5], 2, 3)].concat(),
    ];
    let lists: [&[u32]; 9] = [&[1], &[2], &[3], &[4], &[5], &[6], &[4, 5], &[2, 3, 5], &[6, 5, 4]];
    let mut cases = each(&frozen, &log(&set), &lists);
    cases.extend(each(&frozen, &headings([1]), &[&[1], &[], &[1, 1, 1], &[2]]));
    let all: Vec<u32> = (1..=200).collect();
    cases.extend(each(&frozen, &headings(1..=200), &[&[200], &[1, 200], &all, &[201]]));
    cases.extend(each(b"", b"", &[&[], &[1], &[0]]));
    cases.extend(each(b"", &headings([1, 2]), &[&[], &[2], &[3]]));
    cases.extend(each(&frozen, b"", &[&[], &[1]]));
    cases.extend(each(b"", &log(&[vec![put(&leg("P", 10, 0))], vec![out(&leg("P", 10, 0))]]), &[&[1], &[2]]));
    cases
}

/// 200 corrections of one route; and of two routes in turn.
fn one_route() -> Vec<Case> {
    let frozen = file(&[leg("P", 10, 0), leg("Q", 10, 0)]);
    let set: Vec<Correction> = (0..200).map(|step| renewed("P", 10, step % 5, (step + 1) % 5)).collect();
    let all: Vec<u32> = (1..=200).rev().collect();
    let mut cases =
        each(&frozen, &log(&set), &[&[200], &[1], &[100], &[3, 150, 7], &all, &[], &[201], &[200, 0]]);
    let in_turn: Vec<Correction> =
        (0..200).map(|step| renewed(["P", "Q"][step % 2], 10, step / 2 % 5, (step / 2 + 1) % 5)).collect();
    cases.extend(each(&frozen, &log(&in_turn), &[&[200], &[199], &[100, 51], &[1, 2]]));
    cases
}

/// A changed leg is wanted, and the older correction that put in the leg before
/// it is not: without that one the pair would not stand.
fn older_leg() -> Vec<Case> {
    let frozen = file(&[leg_of("P", 10, 0, "CA"), leg_of("P", 30, 0, "VA"), leg_of("Q", 10, 0, "CA")]);
    let changed_leg = replaced(&leg_of("P", 30, 0, "VA"), &leg_of("P", 30, 1, "TF"));
    let older = vec![put(&leg_of("P", 20, 0, "CF"))];
    let elsewhere = replaced(&leg_of("Q", 10, 0, "CA"), &leg_of("Q", 10, 1, "VA"));
    let set = vec![older.clone(), elsewhere.clone(), changed_leg.clone(), vec![]];
    let mut cases = each(&frozen, &log(&set), &[&[3], &[2], &[1], &[], &[4], &[3, 2]]);
    cases.extend(each(&frozen, &log(&[changed_leg, older, elsewhere]), &[&[1], &[2]]));
    cases
}

// ---- wanted lists

/// Long lists, numbers that come twice, and bad numbers near and far.
fn wanted_lists() -> Vec<Case> {
    let (frozen, log) = (pqr(), log(&five_corrections()));
    let large = [7, 200, 201, 255, 256, 257, 261, 65_536, 65_537, 65_541, 1 << 31, u32::MAX];
    let mut cases: Vec<Case> = large.iter().map(|number| case(&frozen, &log, &[*number])).collect();
    cases.extend(each(&frozen, &log, &[&[0], &[1, 0], &[0, 6], &[6, 0], &[5, 4, 3, 2, 1, 0], &[5, 5, 5]]));
    let long = |count: usize| (0..count).map(|at| [2, 4, 2][at % 3]).collect::<Vec<u32>>();
    for count in [199, 200, 201, 256, 257, 640, 1000] {
        cases.push(case(&frozen, &log, &long(count)));
    }
    for (count, at, number) in
        [(200, 199, 0), (201, 200, 6), (300, 255, 0), (300, 256, 6), (640, 639, 0), (1000, 901, 261)]
    {
        let mut wanted = long(count);
        wanted[at] = number;
        cases.push(case(&frozen, &log, &wanted));
    }
    cases
}

// ---- refusals

/// The frozen file refused by each of 1 to 8, with a good log beside it.
fn refused_files() -> Vec<Case> {
    let log = log(&five_corrections());
    let legs: Vec<Vec<u8>> = (1..=4).map(|sequence| files::leg(sequence, &[])).collect();
    let mut frozen: Vec<Vec<u8>> = Vec::new();
    for (_, changes) in files::faults() {
        for at in [1, 3] {
            let mut lines = legs.clone();
            lines[at] = changed(&lines[at], &changes);
            frozen.push(lines.concat());
        }
    }
    frozen.push(legs.concat()[..3 * LINE + 40].to_vec());
    frozen.push(vec![b'x'; ROOM + 1]);
    frozen.push(vec![b'x'; ROOM]);
    frozen.push(file(&[opening("P", 10, 0)]));
    frozen.push(file(&[leg("Q", 10, 0), leg("P", 10, 0)]));
    frozen.push(file(&[leg_of("P", 10, 0, "TF")]));
    frozen.push(file(&[leg_of("P", 10, 0, "CI")]));
    frozen.push(file(&[leg_of("P", 10, 0, "CA"), leg_of("P", 20, 0, "TF")]));
    frozen.push(file(&[leg_of("P", 10, 0, "CF"), leg_of("P", 20, 0, "FA"), leg("Q", 10, 0)]));
    frozen.push(file(&[leg("P", 10, 0), leg("P", 10, 0)]));
    frozen.iter().map(|frozen| case(frozen, &log, &[5])).collect()
}

/// Lines that are none, and logs that stop.
fn refused_lines() -> Vec<Case> {
    let good = log(&five_corrections());
    let mut logs: Vec<Vec<u8>> = Vec::new();
    for length in [1, 2, 3, 4, 5, 6, 70, 138, 139, 200, good.len() - 1] {
        logs.push(good[..length].to_vec());
    }
    for bytes in ["\n", "C\t2\n", "C\t01\n", "D\t", "A\t", "x"] {
        logs.push([bytes.as_bytes(), &good].concat());
    }
    for bytes in ["\n", "C\t5\n", "C\t7\n", "C 6\n", "B\t", "D \t", "A\t\t", "C\t6\r\n"] {
        logs.push([&good, bytes.as_bytes()].concat());
    }
    for (at, byte) in [(0, b'c'), (4, b'E'), (6, b'\n'), (6, 31), (70, 127), (137, 255), (138, b' ')] {
        let mut log = good.clone();
        log[at] = byte;
        logs.push(log);
    }
    logs.iter().map(|log| case(&pqr(), log, &[5])).collect()
}

/// D lines that find no such record, and A lines that find the place taken.
fn not_applying() -> Vec<Case> {
    let frozen = file(&[leg("P", 10, 0), leg("P", 20, 0), leg("Q", 10, 0)]);
    let standing = leg("P", 10, 0);
    let differing = |changes: &[Change]| changed(&standing, changes);
    let new = leg("P", 30, 0);
    let bad: Vec<Correction> = vec![
        vec![put(&leg("P", 10, 1)), out(&standing)],
        vec![put(&standing), out(&standing)],
        vec![put(&standing)],
        vec![put(&leg("Q", 10, 1))],
        vec![put(&differing(&[(26, "X")]))],
        vec![put(&new), put(&new)],
        vec![put(&new), put(&leg("P", 30, 1)), out(&new)],
        vec![out(&leg("P", 10, 1))],
        vec![out(&leg("P", 15, 0))],
        vec![out(&leg("N", 10, 0))],
        vec![out(&differing(&[(26, "X")]))],
        vec![out(&differing(&[(132, "1")]))],
        vec![out(&differing(&[(30, "X")]))],
        vec![out(&standing), out(&standing)],
        vec![out(&new), put(&new)],
        vec![put(&new), out(&new), out(&new)],
        vec![out(&vec![b' '; LINE - 1])],
    ];
    let good = renewed("Q", 10, 0, 0);
    let mut cases = Vec::new();
    for correction in &bad {
        cases.push(case(&frozen, &log(std::slice::from_ref(correction)), &[1]));
        // Nobody wants the one that does not apply, and the log is refused all the same.
        cases.push(case(&frozen, &log(&[good.clone(), vec![], correction.clone(), good.clone()]), &[1, 4]));
    }
    cases
}

/// Routes that are refused after a correction, by each number that a route
/// alone can be refused by.
fn refused_routes() -> Vec<Case> {
    let (first, last) = (leg_of("P", 10, 0, "CF"), leg_of("P", 20, 0, "TF"));
    let frozen = file(&[
        first.clone(),
        last.clone(),
        opening("Q", 10, 0),
        continuation("Q", 10, '2', 0),
        leg("Q", 20, 0),
    ]);
    let new = |changes: &[Change]| changed(&leg("P", 30, 0), changes);
    let by_number: Vec<(usize, Correction)> = vec![
        (3, vec![put(&new(&[(63, "3601")]))]),
        (3, vec![put(&new(&[(39, "7"), (40, "X")]))]),
        (3, vec![put(&new(&[(39, "x")]))]),
        (3, vec![put(&vec![b'~'; LINE - 1])]),
        (4, vec![put(&new(&[(35, "  ")]))]),
        (5, vec![put(&new(&[(71, "    ")]))]),
        (6, vec![put(&opening("P", 30, 0))]),
        (6, vec![put(&continuation("P", 20, '2', 0))]),
        (6, vec![put(&continuation("R", 10, '2', 0))]),
        (6, vec![out(&continuation("Q", 10, '2', 0))]),
        (6, vec![out(&opening("Q", 10, 0))]),
        (6, vec![put(&continuation("Q", 10, '4', 0))]),
        (6, vec![put(&changed(&continuation("Q", 10, '3', 0), &[(38, "B")]))]),
        (7, vec![put(&changed(&leg("Q", 20, 0), &[(39, "1")]))]),
        (7, vec![put(&changed(&leg("P", 20, 0), &[(39, "1")])), put(&continuation("P", 20, '2', 0))]),
        (8, vec![out(&first)]),
        (8, vec![put(&leg_of("P", 15, 0, "CA"))]),
        (8, vec![put(&leg_of("P", 30, 0, "IF"))]),
        (8, vec![put(&leg_of("N", 10, 0, "TF"))]),
        (
            8,
            [leg_of("N", 10, 0, "RF"), leg("N", 20, 0)].map(|leg| put(&changed(&leg, &[(20, "I")]))).to_vec(),
        ),
        // Several routes: the first in byte order, whatever the order of the lines.
        (8, vec![put(&leg("Z", 10, 0)), put(&new(&[(71, "    ")])), put(&leg_of("N", 10, 0, "TF"))]),
        (5, vec![put(&leg_of("R", 10, 0, "TF")), put(&new(&[(71, "    ")]))]),
        (5, vec![put(&new(&[(71, "    ")])), put(&leg_of("R", 10, 0, "TF"))]),
        (8, vec![put(&changed(&leg("Z", 10, 0), &[(63, "3601")])), out(&first)]),
        // Two faults in one route: by record, and in a record by number.
        (8, vec![put(&leg_of("P", 15, 0, "CA")), put(&new(&[(63, "3601")]))]),
        (4, vec![put(&new(&[(35, "  "), (48, "IF")]))]),
    ];
    let mut cases = Vec::new();
    for (at, (number, correction)) in by_number.into_iter().enumerate() {
        let alone = log(std::slice::from_ref(&correction));
        refused_by(&frozen, &alone, 1, number);
        cases.push(case(&frozen, &alone, &[1]));
        if at % 3 == 0 {
            let after_others = [vec![], renewed("Q", 20, 0, 0), correction, vec![]];
            cases.push(case(&frozen, &log(&after_others), &[2]));
        }
    }
    // What is wrong within a correction and right at its end, and what only the next one mends.
    let mended = vec![out(&first), out(&last)];
    cases.extend(each(&frozen, &log(std::slice::from_ref(&mended)), &[&[1]]));
    let one_by_one: Vec<Correction> = mended.iter().map(|line| vec![line.clone()]).collect();
    cases.extend(each(&frozen, &log(&one_by_one), &[&[2]]));
    cases
}

/// Says by which number a route is refused, and after which correction.
fn refused_by(frozen: &[u8], log: &[u8], correction: usize, number: usize) {
    let expected = Refusal { number: 11, place: correction, column: number };
    assert_eq!(check_log(frozen, log), Err(expected), "a route refused by {number} is wanted here");
}

/// Corrections that leave a route whose first leg may not begin it or whose last
/// may not end it, those that do so for a while, and those that do not.
fn beginnings_and_endings() -> Vec<Case> {
    let approach = |sequence, terminator| changed(&leg_of("P", sequence, 0, terminator), &[(20, "I")]);
    let legs = [approach(10, "IF"), approach(20, "CF"), approach(30, "CI"), approach(40, "CF")];
    let notes = |number| continuation("Q", 20, number, 0);
    let noted = |terminator| changed(&leg_of("Q", 20, 0, terminator), &[(39, "1")]);
    let route_q = [leg("Q", 10, 0), noted("CF"), notes('2'), notes('3')];
    let frozen = file(&[&legs[..], &route_q].concat());
    let other = |at: usize, terminator| replaced(&legs[at], &changed(&legs[at], &[(48, terminator)]));
    let refused: Vec<(usize, Vec<Correction>)> = vec![
        // The last leg taken out, made another one, or followed by another one.
        (1, vec![vec![out(&legs[3])]]),
        (1, vec![other(3, "VI")]),
        (1, vec![vec![put(&approach(50, "CI"))]]),
        (1, vec![vec![put(&approach(50, "HA"))]]),
        (2, vec![vec![put(&approach(50, "HM"))], vec![put(&approach(60, "HF"))]]),
        // The same with continuations behind it, as many as there are.
        (1, vec![replaced(&noted("CF"), &noted("CI"))]),
        (1, vec![replaced(&noted("CF"), &noted("HA")), vec![put(&notes('4'))]]),
        (2, vec![vec![out(&notes('3'))], replaced(&noted("CF"), &noted("VI"))]),
        (1, vec![[replaced(&noted("CF"), &noted("CI")), vec![out(&notes('2'))]].concat()]),
        (1, vec![[replaced(&noted("CF"), &noted("CI")), vec![out(&notes('2')), out(&notes('3'))]].concat()]),
        // The first leg taken out or made another one, and one put in front of it.
        (1, vec![vec![out(&legs[0])]]),
        (1, vec![other(0, "CF")]),
        (1, vec![vec![put(&approach(5, "FC"))]]),
        // Mended too late, by taking out more or by putting it in again.
        (1, vec![vec![out(&legs[3])], vec![out(&legs[2])]]),
        (1, vec![vec![out(&legs[3])], vec![put(&legs[3])]]),
        (
            2,
            vec![
                renewed("Q", 10, 0, 1),
                other(3, "CI"),
                replaced(&changed(&legs[3], &[(48, "CI")]), &legs[3]),
            ],
        ),
        // A leg of its own route, between that and the next one in the file.
        (1, vec![vec![put(&approach(50, "VI")), put(&leg("P", 10, 0))]]),
        // A leg alone in its route.
        (1, vec![vec![put(&leg_of("R", 10, 0, "CI"))]]),
        (1, vec![vec![put(&changed(&leg_of("R", 10, 0, "IF"), &[(20, "I")]))]]),
        (1, vec![vec![out(&legs[1]), out(&legs[2]), out(&legs[3])]]),
    ];
    let mut cases = Vec::new();
    for (correction, corrections) in refused {
        let log = log(&corrections);
        refused_by(&frozen, &log, correction, 8);
        cases.push(case(&frozen, &log, &[1]));
    }
    // Where the ending is not reached: a fault of another number, or in a route or correction before.
    let bad = |changes: &[Change]| put(&changed(&approach(50, "CI"), changes));
    for (number, lines) in [
        (3, vec![bad(&[(63, "3601")])]),
        (4, vec![bad(&[(35, "  ")])]),
        (5, vec![bad(&[(71, "    ")])]),
        (6, vec![bad(&[(39, "2"), (40, " ")])]),
        (7, vec![bad(&[(27, "040"), (39, "1")])]),
        (5, vec![put(&changed(&approach(25, "CF"), &[(71, "    ")])), bad(&[])]),
        (8, vec![bad(&[]), put(&changed(&leg("R", 10, 0), &[(63, "3601")]))]),
        (3, vec![put(&changed(&leg("P", 10, 0), &[(63, "3601"), (20, "A")])), bad(&[])]),
    ] {
        let log = log(&[lines]);
        refused_by(&frozen, &log, 1, number);
        cases.push(case(&frozen, &log, &[1]));
    }
    let accepted: Vec<Vec<Correction>> = vec![
        // Within one correction a route may end as it likes.
        vec![vec![out(&legs[3]), out(&legs[2])], vec![put(&legs[2]), put(&legs[3])]],
        vec![[vec![out(&legs[0])], vec![put(&legs[0])]].concat(), other(3, "DF")],
        vec![vec![put(&approach(60, "CF")), put(&approach(50, "CI"))], other(3, "CI")],
        // Missed approaches in the approach's own route, and one more fix behind the first.
        vec![vec![put(&approach(50, "CA"))], vec![put(&approach(60, "DF"))], vec![put(&approach(70, "HM"))]],
        vec![vec![put(&approach(15, "IF"))], vec![out(&legs[0])]],
        vec![replaced(&noted("CF"), &noted("HM")), vec![out(&notes('3'))], vec![put(&leg("Q", 30, 0))]],
        vec![legs.iter().map(out).collect(), legs.iter().rev().map(put).collect()],
    ];
    for corrections in accepted {
        let log = log(&corrections);
        assert_eq!(check_log(&frozen, &log), Ok(()), "an accepted log is wanted here");
        cases.extend(each(&frozen, &log, &[&[1], &[corrections.len() as u32]]));
    }
    cases
}

/// 60,000 bytes, 200 corrections and 480 records, and one more of each.
fn limits() -> Vec<Case> {
    let frozen = file(&[leg("P", 10, 0)]);
    let mut cases = Vec::new();
    let back_and_forth: Vec<Line> = renewed("P", 10, 0, 0);
    let long: Vec<Line> = back_and_forth.iter().cycle().take(440).cloned().collect();
    let exact = [log(&[long]), headings(2..=118)].concat();
    for more in [&b""[..], b"C", b"C\t119\n"] {
        cases.push(case(&frozen, &[&exact[..], more].concat(), &[1, 118]));
    }
    cases.push(case(&frozen, &vec![b'x'; 60_000], &[]));
    cases.push(case(&frozen, &vec![b'x'; 60_001], &[]));
    cases.push(case(&frozen, &[headings(1..=200), vec![b'x'; 60_000]].concat(), &[]));
    for end in ["", "C\t201\n", "C\t201", "C\t20\n", "C\t201\nx"] {
        cases.push(case(&frozen, &[&headings(1..=200)[..], end.as_bytes()].concat(), &[200]));
    }
    let full = full_file();
    for (frozen, puts) in [(480, 0), (480, 1), (479, 1), (479, 2), (478, 2), (478, 3)] {
        let lines: Vec<Line> = (1..=puts).map(|sequence| put(&leg("Z", sequence, 0))).collect();
        cases.push(case(&file(&full[..frozen]), &log(&[vec![], lines]), &[2]));
    }
    // Room is not won back by what is taken out.
    let in_place = replaced(&full[0], &full[0]);
    cases.push(case(&file(&full), &log(&[in_place.clone()]), &[1]));
    cases.push(case(&file(&full[..479]), &log(&[in_place.clone()]), &[1]));
    cases.push(case(&file(&full[..479]), &log(&[in_place.clone(), in_place]), &[1]));
    cases
}

/// Buffers around the limit, beside an accepted and a refused pick.
fn rooms() -> Vec<Case> {
    let accepted = case(&pqr(), &log(&five_corrections()), &[5]);
    let refused = case(&pqr(), &log(&five_corrections()), &[6]);
    let nothing = case(b"", b"", &[]);
    let mut cases = Vec::new();
    for room in [0, 1, 133, 3 * LINE, 63_839, 63_841, 65_535] {
        cases.push(Case { room, ..accepted.clone() });
    }
    for room in [0, 63_839, 65_535] {
        cases.push(Case { room, ..refused.clone() });
        cases.push(Case { room, ..nothing.clone() });
    }
    cases
}

/// Each two faults of a pick side by side, each one alone, and all from each
/// one on.
fn several_faults() -> Vec<Case> {
    const FAULTS: usize = 9;
    let mut cases = Vec::new();
    for first in 0..FAULTS {
        for second in first..FAULTS {
            cases.push(troubled(&|fault| fault == first || fault == second));
        }
        cases.push(troubled(&|fault| fault >= first));
    }
    // A line past a limit in front of a bad one, and a bad correction in front of another.
    let put_one = vec![put(&leg("Z", 10, 0))];
    let past = [log(&[put_one.clone()]), b"x".to_vec()].concat();
    cases.push(case(&file(&full_file()), &past, &[0]));
    let bad = [b"C\t1\nx\n".to_vec(), log(&[put_one])].concat();
    cases.push(case(&file(&full_file()), &bad, &[0]));
    let (unknown, unfit) = (vec![out(&leg("P", 20, 0))], vec![put(&leg_of("N", 10, 0, "TF"))]);
    cases.push(case(&pqr(), &log(&[unfit.clone(), unknown.clone()]), &[2]));
    cases.push(case(&pqr(), &log(&[unknown.clone(), unfit.clone()]), &[2]));
    cases.push(case(&pqr(), &log(&[[unfit, unknown].concat()]), &[1]));
    cases
}

/// A pick with these of the faults 0 to 8, in the order in which they are met.
fn troubled(has: &dyn Fn(usize) -> bool) -> Case {
    let mut frozen = pqr();
    let mut corrections = five_corrections();
    if has(3) {
        frozen[62..66].copy_from_slice(b"3601");
    }
    if has(2) {
        frozen.resize(ROOM + 1, b'x');
    }
    if has(7) {
        corrections.insert(5, vec![out(&leg("P", 20, 0))]);
    }
    if has(8) {
        corrections.push(vec![put(&leg_of("N", 10, 0, "TF"))]);
    }
    let mut log = log(&corrections);
    if has(4) {
        log.extend(b"C\t0\n");
    }
    if has(5) {
        log.extend(headings(corrections.len() + 1..=201));
    }
    if has(1) {
        log.resize(60_001, b'x');
    }
    let wanted = if has(6) { vec![5, 0] } else { vec![5] };
    let room = if has(0) { ROOM - 1 } else { ROOM };
    Case { frozen, log, wanted, room }
}

// ---- the largest

/// 480 records in 16 routes of 30 legs.
pub(crate) fn full_file() -> Vec<Record> {
    let routes = ('A'..='P').map(|name| name.to_string());
    routes.flat_map(|route| (1..=30).map(move |sequence| leg(&route, sequence, 0))).collect()
}

/// 480 records in one route.
fn full_route() -> Vec<Record> {
    (1..=480).map(|sequence| leg("A", sequence, 0)).collect()
}

/// The numbers of so many corrections.
fn numbers(corrections: usize) -> Vec<u32> {
    (1..=corrections as u32).collect()
}

/// So many of these records taken out, from all over the file, by all
/// corrections in turn. All are wanted.
fn outs(frozen: &[Record], lines: usize, corrections: usize) -> Case {
    let mut outs: Vec<Correction> = vec![Vec::new(); corrections];
    for at in 0..lines {
        outs[at % corrections].push(out(&frozen[at * 101 % frozen.len()]));
    }
    case(&file(frozen), &log(&outs), &numbers(corrections))
}

/// So many times one of these records replaced, no other than the first as many
/// as there are corrections, some of them twice. All are wanted.
fn renewals(frozen: &[Record], times: usize, corrections: usize) -> Case {
    let mut state = frozen.to_vec();
    let mut renewals: Vec<Correction> = vec![Vec::new(); corrections];
    for at in 0..times {
        let record = &mut state[at * 37 % corrections];
        let newer = changed(record, &[(124, &format!("{:05}", 1 + at % 3))]);
        renewals[at % corrections].extend(replaced(record, &newer));
        *record = newer;
    }
    case(&file(frozen), &log(&renewals), &numbers(corrections))
}

/// The inputs whose cost is measured: two of the largest, a half and a quarter
/// of each, in routes of 30 legs and in one route.
pub fn timed() -> Vec<(String, Case)> {
    let mut inputs = Vec::new();
    for (routes, full) in [("routes of 30", full_file()), ("one route", full_route())] {
        for (size, parts) in [("all", 1), ("half", 2), ("quarter", 4)] {
            let part = |whole: usize| (whole + parts / 2) / parts;
            let corrections = part(200);
            let of = |kind: &str| format!("{kind}, {routes}, {size}");
            inputs.push((of("D alone"), outs(&full[..part(480)], part(436), corrections)));
            inputs.push((of("D and A"), renewals(&full[..part(260)], part(215), corrections)));
        }
    }
    inputs
}

/// As many records, corrections and lines as there may be.
pub(crate) fn largest() -> Vec<Case> {
    let full = full_file();
    let all = numbers(200);
    let lists: [&[u32]; 4] = [&all, &[], &[200], &[7, 150]];
    // 436 records taken out, two or three by each correction.
    let Case { frozen, log: lines, .. } = outs(&full, 436, 200);
    let mut cases = each(&frozen, &lines, &lists);
    // 215 times one of 260 records replaced.
    let Case { frozen, log: lines, .. } = renewals(&full[..260], 215, 200);
    cases.extend(each(&frozen, &lines, &lists));
    // 444 records put in beside 36, by one correction, the last place first.
    let puts: Vec<Line> = full[36..].iter().rev().map(put).collect();
    cases.extend(each(&file(&full[..36]), &log(&[puts]), &[&[1], &[]]));
    // 430 put in out of nothing by 200 corrections.
    let mut puts: Vec<Correction> = vec![Vec::new(); 200];
    for at in 0..430 {
        puts[at % 200].push(put(&full[at * 7 % 480]));
    }
    cases.extend(each(b"", &log(&puts), &[&all, &[3], &[200, 1]]));
    cases.push(case(&file(&full), b"", &[]));
    cases
}

// ---- random

/// Small files and logs that mostly apply, every fifth of them damaged.
fn random() -> Vec<Case> {
    let mut dice = Dice(0x5049_434b_494e_4730);
    let mut one = |at: usize| {
        let routes = few_routes(&mut dice);
        random_case(&mut dice, &routes, at % 5 == 4)
    };
    (0..48).map(&mut one).collect()
}
