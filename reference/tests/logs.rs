//! The instructions make the set of logs and lists, and the cases on either side
//! of each rule.

use std::collections::HashSet;

use reference::log::{read, Change};
use reference::logs::{all, made_by, stored_files, Text};
use reference::wanted::numbers;
use reference::Refusal;

fn refused(log: impl AsRef<[u8]>, number: u8, place: usize, column: usize) {
    assert_eq!(read(log.as_ref(), 0), Err(Refusal { number, place, column }));
}

fn change(letter: char, length: usize) -> String {
    format!("{letter}\t{}\n", "r".repeat(length))
}

fn headings(count: usize) -> String {
    (1..=count).map(|number| format!("C\t{number}\n")).collect()
}

#[test]
fn the_instructions_make_the_set() {
    let [(_, instructions), _] = stored_files();
    assert!(instructions.len() <= 65_000, "{} bytes", instructions.len());
    assert!(made_by(&instructions) == all());
}

#[test]
fn the_set_meets_every_refusal_and_acceptance() {
    let logs = all().into_iter().filter_map(|text| match text {
        Text::Log(log, frozen) => {
            Some(read(&log, frozen).map_or_else(|r| (r.number, r.place == 0), |_| (0, false)))
        }
        Text::Wanted(_) => None,
    });
    assert_eq!(
        logs.collect::<HashSet<_>>(),
        HashSet::from([(0, false), (9, false), (13, false), (13, true)])
    );
}

#[test]
fn where_a_line_goes_wrong() {
    refused("C\t01\n", 9, 1, 3);
    refused("C\t1", 9, 1, 4);
    refused("D", 9, 1, 1);
    refused(format!("C\t1\n{}", change('D', 131)), 9, 2, 134);
    refused(format!("C\t1\n{}", change('A', 133)), 9, 2, 135);
    refused(format!("{}C\t201", headings(200)), 9, 201, 6);
}

#[test]
fn limits() {
    refused(format!("{}C\t201\n", headings(200)), 13, 201, 0);
    refused([b'x'; 60_001], 13, 0, 0);
    refused([b'x'; 60_000], 9, 1, 1);
    let put = format!("C\t1\n{}", change('A', 132));
    assert_eq!(read(put.as_bytes(), 480), Err(Refusal { number: 13, place: 2, column: 0 }));
    let said = read(put.as_bytes(), 479).expect("480 records have room");
    assert_eq!(said.corrections, 1);
    assert_eq!(said.changes, [Change { letter: b'A', at: 6, correction: 1 }]);
}

#[test]
fn wanted_numbers() {
    assert_eq!(numbers(b""), []);
    assert_eq!(numbers(b"5\n005\n0005\n\n200\n7"), [5, 5, 0, 0, 200, 0]);
    assert_eq!(numbers(&b"7\n".repeat(200)), [7; 200]);
    let many = numbers(&b"7\n".repeat(300));
    assert_eq!((many.len(), many[199], many[200]), (201, 7, 0));
}
