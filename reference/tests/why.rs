//! What `why` says is so, by the text of the log: each correction taken has the
//! reason that is its own, and a refusal the line, the route and the record that
//! it is about. And the folders meet every kind of answer.

use std::collections::{BTreeMap, BTreeSet};

use reference::answers::{pick_answer, why_answer, Inputs};
use reference::file::{check, LINE};
use reference::folders::{all, Folder};
use reference::pick::{check_log, failing, pick, reasons, Cause, Reason, Why, IN_LOG};
use reference::random_folders::random;
use reference::wanted::numbers;
use reference::Refusal;

const RECORD: usize = LINE - 1;

/// A D or A line: the number of its line in the log, the offset of its record,
/// its letter and its record.
#[derive(Clone, Copy)]
struct Change<'a> {
    line: usize,
    at: usize,
    letter: u8,
    record: &'a [u8],
}

impl<'a> Change<'a> {
    fn route(&self) -> &'a [u8] {
        &self.record[..25]
    }
}

/// The lines of each correction of an accepted log.
fn corrections(log: &[u8]) -> Vec<Vec<Change<'_>>> {
    let mut corrections: Vec<Vec<Change>> = Vec::new();
    let mut start = 0;
    for (line, bytes) in (1..).zip(log.split_inclusive(|byte| *byte == b'\n')) {
        match bytes[0] {
            b'C' => corrections.push(Vec::new()),
            letter => {
                let change = Change { line, at: start + 2, letter, record: &bytes[2..2 + RECORD] };
                corrections.last_mut().expect("a correction has begun").push(change);
            }
        }
        start += bytes.len();
    }
    corrections
}

/// The last correction before this one that touches the route.
fn last_before(corrections: &[Vec<Change>], number: usize, route: &[u8]) -> Option<usize> {
    let mut last = None;
    for (earlier, changes) in (1..number).zip(corrections) {
        if changes.iter().any(|change| change.route() == route) {
            last = Some(earlier);
        }
    }
    last
}

/// A line of an answer that stands.
#[derive(Debug, PartialEq, Eq)]
enum Said {
    Wanted(usize),
    For(usize, usize, Vec<u8>),
}

/// What an answer that stands says, line by line.
fn said(answer: &[u8]) -> Vec<Said> {
    let number = |word: &[u8]| -> usize {
        std::str::from_utf8(word).ok().and_then(|word| word.parse().ok()).expect("a number")
    };
    let one = |line: &[u8]| {
        let line = line.strip_suffix(b"\n").expect("a line feed");
        let words: Vec<&[u8]> = line.split(|byte| *byte == b'\t').collect();
        match words[..] {
            [b"take", correction, b"wanted"] => Said::Wanted(number(correction)),
            [b"take", correction, b"for", later, route] if route.len() == 25 => {
                Said::For(number(correction), number(later), route.to_vec())
            }
            _ => panic!("no line of an answer: {line:?}"),
        }
    };
    answer.split_inclusive(|byte| *byte == b'\n').map(one).collect()
}

fn stored() -> Vec<Inputs> {
    all().iter().map(Folder::inputs).collect()
}

fn random_ones() -> Vec<Inputs> {
    (1..=2_500).map(|number| random(7, number)).collect()
}

/// How many steps lead from a correction to a wanted one.
fn steps(reasons: &BTreeMap<usize, Option<usize>>, from: usize) -> usize {
    let (mut at, mut steps) = (from, 0);
    while let Some(later) = reasons[&at] {
        assert!(later > at, "reasons lead by rising numbers");
        (at, steps) = (later, steps + 1);
    }
    steps
}

/// Holds the reasons in these folders to the text of their logs, and counts by
/// how many steps each correction is taken.
fn hold_reasons(folders: &[Inputs]) -> BTreeMap<usize, usize> {
    let mut counts = BTreeMap::new();
    for inputs in folders {
        let Inputs { frozen, log, want } = inputs;
        let wanted = numbers(want);
        let Ok(picked) = pick(frozen, log, &wanted) else { continue };
        let corrections = corrections(log);
        let found = reasons(frozen, log, &wanted).expect("an accepted pick has reasons");
        let lines = said(&why_answer(inputs));
        assert_eq!(found.iter().map(|reason| reason.correction).collect::<Vec<_>>(), picked.taken);
        assert_eq!(lines.len(), found.len());
        let mut next = BTreeMap::new();
        for (Reason { correction, why }, line) in found.iter().zip(lines) {
            let is_wanted = wanted.contains(&(*correction as u32));
            let Why::For { correction: later, source } = *why else {
                assert!(is_wanted);
                assert_eq!(line, Said::Wanted(*correction));
                next.insert(*correction, None);
                continue;
            };
            next.insert(*correction, Some(later));
            let at = source - IN_LOG;
            assert_eq!(line, Said::For(*correction, later, log[at..at + 25].to_vec()));
            assert!(!is_wanted && picked.taken.contains(&later) && later > *correction);
            let relies = |by: usize, change: &Change| {
                last_before(&corrections, by, change.route()) == Some(*correction)
            };
            // The record is that of one of its lines, and no line before that one relies on the correction.
            let place = corrections[later - 1].iter().position(|change| change.at == at).expect("a line");
            assert!(relies(later, &corrections[later - 1][place]));
            assert!(!corrections[later - 1][..place].iter().any(|change| relies(later, change)));
            // No smaller one that is taken relies on it.
            for other in picked.taken.iter().filter(|other| **other < later) {
                assert!(!corrections[*other - 1].iter().any(|change| relies(*other, change)));
            }
        }
        for correction in &picked.taken {
            *counts.entry(steps(&next, *correction)).or_insert(0) += 1;
        }
    }
    counts
}

#[test]
fn every_correction_taken_has_its_reason() {
    let counts = hold_reasons(&stored());
    assert!(counts.contains_key(&199), "{counts:?}");
    let counts = hold_reasons(&random_ones());
    for steps in 0..=3 {
        assert!(counts.get(&steps).is_some_and(|count| *count > 50), "{steps} steps: {counts:?}");
    }
}

/// The records of a route that stand after the correction with this number.
fn route_after<'a>(
    frozen: &'a [u8],
    corrections: &[Vec<Change<'a>>],
    correction: usize,
    route: &[u8],
) -> Vec<&'a [u8]> {
    let place = |record: &[u8]| [&record[26..29], &record[38..39]].concat();
    let mut standing: BTreeMap<Vec<u8>, &[u8]> = frozen
        .chunks(LINE)
        .filter(|line| line[..25] == *route)
        .map(|line| (place(line), &line[..RECORD]))
        .collect();
    for change in corrections[..correction].iter().flatten().filter(|change| change.route() == route) {
        match change.letter {
            b'A' => standing.insert(place(change.record), change.record),
            _ => standing.remove(&place(change.record)),
        };
    }
    standing.into_values().collect()
}

/// Whether a line can't be applied where it stands, by all lines before it.
fn unfit(frozen: &[u8], corrections: &[Vec<Change>], change: &Change) -> bool {
    let place = |record: &[u8]| [&record[..25], &record[26..29], &record[38..39]].concat();
    let before = corrections.iter().flatten().take_while(|other| other.at < change.at);
    // The last that was done to its place, or what was frozen there.
    let frozen = frozen.chunks(LINE).map(|line| (b'A', &line[..RECORD]));
    let done = frozen.chain(before.map(|other| (other.letter, other.record)));
    let last = done.filter(|(_, record)| place(record) == place(change.record)).last();
    let standing = last.filter(|(letter, _)| *letter == b'A').map(|(_, record)| record);
    match change.letter {
        b'A' => standing.is_some(),
        _ => standing != Some(change.record),
    }
}

fn with_line_feeds(records: &[&[u8]]) -> Vec<u8> {
    records.iter().flat_map(|record| [*record, b"\n"].concat()).collect()
}

fn record_line(record: &[u8]) -> Vec<u8> {
    [b"record\t", record, b"\n"].concat()
}

/// What is said behind the line of a refusal, and what is met by it.
fn explanation(inputs: &Inputs, refusal: Refusal) -> (Vec<u8>, String) {
    let Inputs { frozen, log, .. } = inputs;
    let Refusal { number, place, column } = refusal;
    match number {
        1 | 3..=8 => {
            let rest = frozen.get((place - 1) * LINE..).expect("the place is in the file or behind it");
            let record = &rest[..rest.len().min(RECORD)];
            let what = match (number, record.len()) {
                (6, 0) => return (vec![], "6 behind the last record".to_string()),
                (1, RECORD) if rest.len() > RECORD => "1 at another byte 133".to_string(),
                (1, _) => "1 of a cut record".to_string(),
                (7 | 8, _) => format!("{number} at column {column}"),
                _ => format!("{number} in the file"),
            };
            (record_line(record), what)
        }
        10 => {
            let corrections = corrections(log);
            let found = corrections[place - 1].iter().position(|change| unfit(frozen, &corrections, change));
            let first = found.expect("a line of the correction can't be applied");
            let Change { line, letter, .. } = corrections[place - 1][first];
            let behind = if first == 0 { "first" } else { "later" };
            (format!("line\t{line}\n").into_bytes(), format!("10 by {behind} {}", char::from(letter)))
        }
        11 => {
            let corrections = corrections(log);
            let touched: BTreeSet<&[u8]> = corrections[place - 1].iter().map(Change::route).collect();
            let stand = |route: &[u8]| route_after(frozen, &corrections, place, route);
            let judged = touched.iter().map(|route| (*route, check(&with_line_feeds(&stand(route)))));
            let mut refused =
                judged.enumerate().filter_map(|(at, (route, said))| Some((at, route, said.err()?)));
            let (at, route, inner) = refused.next().expect("a route is refused");
            assert_eq!(usize::from(inner.number), column, "the column is the number of the route's refusal");
            let numbers = format!("\t{}\t{}\t{}\n", inner.number, inner.place, inner.column).into_bytes();
            let records = stand(route);
            let record = records.get(inner.place - 1);
            let line = record.map_or(vec![], |record| record_line(record));
            // A record that was put in stands in the log, and in no line of the frozen file.
            let lies = record.map_or("nowhere", |record| {
                let is_frozen = frozen.chunks(LINE).any(|line| line[..RECORD] == **record);
                let put_in =
                    corrections[..place].iter().flatten().any(|c| c.letter == b'A' && c.record == *record);
                match (is_frozen, put_in) {
                    (true, false) => "in the file",
                    (false, true) => "in the log",
                    _ => "in both",
                }
            });
            let which = if at == 0 { "first" } else { "later" };
            let what = format!("11 with {} {lies}, {which} route", inner.number);
            ([b"in\t", route, &numbers, &line].concat(), what)
        }
        _ => (vec![], format!("{number}")),
    }
}

/// Holds what is said of refusals in these folders to their files, and counts
/// what they are.
fn hold_refusals(folders: &[Inputs]) -> BTreeMap<String, usize> {
    let mut counts = BTreeMap::new();
    for inputs in folders {
        let Inputs { frozen, log, want } = inputs;
        let Err(refusal) = pick(frozen, log, &numbers(want)) else { continue };
        assert_eq!(reasons(frozen, log, &numbers(want)), Err(refusal));
        let (more, what) = explanation(inputs, refusal);
        assert!(why_answer(inputs) == [pick_answer(inputs), more].concat(), "{what}");
        *counts.entry(what).or_insert(0) += 1;
    }
    counts
}

#[test]
fn a_refusal_says_what_it_is_about() {
    let kinds = [
        "1 of a cut record",
        "1 at another byte 133",
        "2",
        "3 in the file",
        "4 in the file",
        "5 in the file",
        "6 in the file",
        "6 behind the last record",
        "7 at column 1",
        "7 at column 27",
        "8 at column 48",
        "8 at column 49",
        "9",
        "10 by first D",
        "10 by later D",
        "10 by first A",
        "10 by later A",
        "11 with 3 in the log, first route",
        "11 with 4 in the log, first route",
        "11 with 5 in the log, first route",
        "11 with 5 in the log, later route",
        "11 with 6 in the file, first route",
        "11 with 6 nowhere, first route",
        "11 with 7 in the log, first route",
        "11 with 8 in the log, first route",
        "11 with 8 in the file, first route",
        "12",
        "13",
    ];
    let counts = hold_refusals(&stored());
    for kind in kinds {
        assert!(counts.contains_key(kind), "{kind} is not stored: {counts:?}");
    }
    let counts = hold_refusals(&random_ones());
    let met = |front: &str| counts.keys().filter(|what| what.starts_with(front)).count();
    assert!(met("10 by ") == 4 && met("11 with ") >= 6, "{counts:?}");
}

#[test]
fn what_fails_is_what_is_refused() {
    let mut met = BTreeSet::new();
    for Inputs { frozen, log, .. } in stored().into_iter().chain(random_ones()) {
        let refused = check_log(&frozen, &log);
        let failure = failing(&frozen, &log);
        // Before 10 and 11 nothing is carried anywhere.
        let Err(refusal @ Refusal { number: 10 | 11, .. }) = refused else {
            assert_eq!(failure, None);
            continue;
        };
        let failure = failure.expect("a correction fails");
        assert_eq!(failure.refusal(), refusal);
        met.insert(refusal.number);
        let Cause::Route { sources, records, refusal } = failure.cause else { continue };
        assert_eq!(check(&with_line_feeds(&records)), Err(refusal));
        for (source, record) in sources.iter().zip(&records) {
            let lies = match source.checked_sub(IN_LOG) {
                Some(at) => &log[at..at + RECORD],
                None => &frozen[*source..source + RECORD],
            };
            assert_eq!(lies, *record);
        }
        assert_eq!(sources.len(), records.len());
    }
    assert_eq!(met, BTreeSet::from([10, 11]));
}

/// The answer of `why` to the stored folder with this name.
fn why_of(name: &str) -> Vec<u8> {
    let folder = all().into_iter().find(|folder| folder.name == name).expect("a folder of that name");
    why_answer(&folder.inputs())
}

#[test]
fn reasons_that_are_easily_mistaken() {
    // For each folder the correction that the first one is taken for, and the last letter of the route.
    let first = |name: &str| match said(&why_of(name)).swap_remove(0) {
        Said::For(1, later, route) => (later, char::from(route[20])),
        line => panic!("{name}: {line:?}"),
    };
    assert_eq!(first("taken for two routes, the later one first"), (2, 'Q'));
    assert_eq!(first("taken for two"), (2, 'P'));
    assert_eq!(first("taken for the second of two, the other left out"), (3, 'Q'));
    assert_eq!(first("taken for a line that only takes out"), (2, 'R'));
    assert_eq!(first("taken for one that is taken for another"), (2, 'P'));
    let both = said(&why_of("taken for the first line, and for the third"));
    assert!(matches!(&both[1], Said::For(2, 3, route) if route[20] == b'Q'));
    assert_eq!(said(&why_of("wanted, and relied on")), [Said::Wanted(1), Said::Wanted(2)]);
    assert_eq!(said(&why_of("empty: want.txt")), []);
    let chain = said(&why_of("200 corrections, each taken for the next"));
    assert_eq!(chain.len(), 200);
    assert!((1..200)
        .zip(&chain)
        .all(|(number, line)| matches!(line, Said::For(n, m, _) if (*n, *m) == (number, number + 1))));
}
