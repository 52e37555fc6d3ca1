//! The instructions make the set of files, and the requirement's own cases that speak of files.

mod ways;

use std::collections::{BTreeSet, HashSet};

use reference::file::{check, LINE};
use reference::{cases, files, Refusal};
use ways::{row, way, WAYS};

/// A leg of an approach.
fn leg(sequence: &str, terminator: &str) -> Vec<u8> {
    let mut bytes = cases::LEG.as_bytes().to_vec();
    bytes[26..29].copy_from_slice(sequence.as_bytes());
    bytes[47..49].copy_from_slice(terminator.as_bytes());
    bytes
}

fn refused(file: &[u8], number: u8, place: usize, column: usize) {
    assert_eq!(check(file), Err(Refusal { number, place, column }));
}

#[test]
fn the_instructions_make_the_set() {
    let [_, (_, instructions), _] = files::stored_files();
    assert!(instructions.len() <= 65_000, "{} bytes", instructions.len());
    assert!(files::made_by(&instructions) == files::all());
}

#[test]
fn the_set_meets_every_refusal_and_acceptance() {
    let numbers: HashSet<u8> =
        files::all().iter().map(|file| check(file).map_or_else(|r| r.number, |()| 0)).collect();
    assert_eq!(numbers, (0..=8).collect());
}

#[test]
fn the_set_has_every_kind_of_route_begin_and_end_well_and_badly() {
    let mut met = BTreeSet::new();
    for file in files::all() {
        match check(&file) {
            Ok(()) => met.extend(file.chunks(LINE).map(|record| ("good", row(record)))),
            Err(refusal) if refusal.number == 8 => drop(met.insert(way(&file, refusal))),
            Err(_) => {}
        }
    }
    for row in 0..9 {
        for what in ["good", WAYS[0], WAYS[2]] {
            assert!(met.contains(&(what, row)), "{what} in row {row} is not met");
        }
    }
    assert!(met.iter().any(|(what, _)| *what == WAYS[1]));
}

/// The same leg in a departure of type 1.
fn departing(mut leg: Vec<u8>) -> Vec<u8> {
    (leg[12], leg[19]) = (b'D', b'1');
    leg
}

#[test]
fn legs_in_sequence() {
    assert_eq!(check(b""), Ok(()));
    assert_eq!(check(&[leg("010", "IF"), leg("020", "TF")].concat()), Ok(()));
    refused(&[leg("010", "CA"), leg("020", "TF")].map(departing).concat(), 8, 2, 48);
    refused(&[leg("010", "TF"), leg("020", "TF")].concat(), 8, 1, 48);
    refused(&leg("010", "TF"), 8, 1, 48);
}

#[test]
fn a_needed_altitude() {
    let mut record = leg("010", "CA");
    record[84..89].fill(b' ');
    refused(&record, 5, 1, 85);
}

#[test]
fn one_record_too_many() {
    refused(&[b'S'; 63_841], 2, 481, 0);
    refused(&[b'S'; 63_840], 1, 1, 133);
}
