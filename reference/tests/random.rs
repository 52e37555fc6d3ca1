//! The random folders meet what they are there for: routes of every kind that
//! stand, and legs that may not begin, follow or end, in files and in logs;
//! fourteenth cycles, in years that have one and in others; and content that goes
//! wrong at a later byte of its field.

mod ways;

use std::collections::{BTreeMap, BTreeSet};

use reference::answers::Inputs;
use reference::file::{check, LINE};
use reference::layout::{CONTINUATION, HEAD, PRIMARY, TAIL};
use reference::pick::{check_log, new_file, ROOM};
use reference::random_folders::random;
use reference::wanted::numbers;
use reference::Refusal;
use ways::{row, way, WAYS};

const FOLDERS: u64 = 3_000;

/// The first refused route after the correction with this number, in the order
/// of the routes.
fn refused_route(frozen: &[u8], log: &[u8], correction: usize) -> (Vec<u8>, Refusal) {
    let place = |record: &[u8]| [&record[..25], &record[26..29], &record[38..39]].concat();
    let mut standing: BTreeMap<Vec<u8>, &[u8]> =
        frozen.chunks(LINE).map(|line| (place(line), line)).collect();
    let (mut number, mut touched) = (0, BTreeSet::new());
    for line in log.split_inclusive(|byte| *byte == b'\n') {
        let record = &line[line.len().min(2)..];
        match line[0] {
            b'C' if number == correction => break,
            b'C' => (number, touched) = (number + 1, BTreeSet::new()),
            b'A' => drop(standing.insert(place(record), record)),
            _ => drop(standing.remove(&place(record))),
        }
        if line[0] != b'C' {
            touched.insert(&record[..25]);
        }
    }
    let route = |key: &[u8]| -> Vec<u8> {
        standing.values().filter(|line| line[..25] == *key).flat_map(|line| line.to_vec()).collect()
    };
    let mut refused = touched.into_iter().map(route).filter_map(|file| check(&file).err().map(|r| (file, r)));
    refused.next().expect("a route is refused")
}

/// Whether the record has the number of a fourteenth cycle.
fn fourteenth(record: &[u8]) -> bool {
    &record[130..132] == b"14"
}

/// Whether a field of either kind of record begins in this column.
fn begins_a_field(column: usize) -> bool {
    [HEAD, PRIMARY, CONTINUATION, TAIL].into_iter().flatten().any(|field| field.0 == column)
}

/// How often each thing is met.
fn counts(seed: u64, folders: u64) -> BTreeMap<String, usize> {
    let mut counts = BTreeMap::new();
    let mut count = |what: String| *counts.entry(what).or_insert(0) += 1;
    for number in 1..=folders {
        let Inputs { frozen, log, want } = random(seed, number);
        match check(&frozen) {
            Ok(()) => count("file: accepted".to_string()),
            Err(Refusal { number: 3, place, column: 132 }) if fourteenth(&frozen[(place - 1) * LINE..]) => {
                count("file: no fourteenth".to_string());
            }
            Err(Refusal { number: 3, column, .. }) if !begins_a_field(column) => {
                count(format!("file: later byte {column}"));
            }
            Err(refusal) if refusal.number == 8 => {
                let (way, row) = way(&frozen, refusal);
                count(format!("file: {way}"));
                count(format!("file: {way} in row {row}"));
            }
            Err(_) => {}
        }
        match check_log(&frozen, &log) {
            Err(Refusal { number: 11, place, column: 8 }) => {
                count("log: 11 with 8".to_string());
                let (route, refusal) = refused_route(&frozen, &log, place);
                assert_eq!(refusal.number, 8);
                let (way, row) = way(&route, refusal);
                count(format!("log: {way}"));
                count(format!("log: {way} in row {row}"));
            }
            Err(Refusal { number: 11, place, column: 3 }) => {
                let (route, refusal) = refused_route(&frozen, &log, place);
                if refusal.column == 132 && fourteenth(&route[(refusal.place - 1) * LINE..]) {
                    count("log: no fourteenth".to_string());
                }
            }
            _ => {}
        }
        if let Ok(made) = new_file(&frozen, &log, &numbers(&want), ROOM) {
            count("accepted".to_string());
            if made.chunks(LINE).any(fourteenth) {
                count("accepted with a fourteenth".to_string());
            }
            let rows: BTreeSet<usize> = made.chunks(LINE).map(row).collect();
            rows.iter().for_each(|row| count(format!("accepted with row {row}")));
            let continued = |line: &[u8]| line[38] == b'2';
            let rows: BTreeSet<usize> = made.chunks(LINE).filter(|line| continued(line)).map(row).collect();
            rows.iter().for_each(|row| count(format!("accepted with row {row} and continuations")));
        }
    }
    counts
}

#[test]
fn every_kind_of_route_stands_and_fails_in_every_way() {
    let counts = counts(5, FOLDERS);
    let met = |what: &str| assert!(counts.contains_key(what), "{what} is not met");
    assert!(counts["accepted"] > FOLDERS as usize / 3, "{} are accepted", counts["accepted"]);
    met("log: 11 with 8");
    met("file: no fourteenth");
    met("log: no fourteenth");
    met("accepted with a fourteenth");
    let later_bytes = counts.keys().filter(|what| what.starts_with("file: later byte")).count();
    assert!(later_bytes >= 8, "{later_bytes} columns within fields are met");
    assert!(counts["file: accepted"] > FOLDERS as usize / 2);
    for row in 0..9 {
        met(&format!("accepted with row {row}"));
        met(&format!("accepted with row {row} and continuations"));
        for way in WAYS {
            met(&format!("file: {way} in row {row}"));
        }
    }
    for way in WAYS {
        met(&format!("log: {way}"));
    }
}
