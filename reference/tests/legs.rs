//! The tables of legs, counted: which cells of 1.3 differ from the rule of paper
//! 01, and what the nine rows of 1.2 have in common.

use reference::cases::LEG;
use reference::file::{check, LINE};
use reference::layout::needs;
use reference::legs::{kind_of, may_begin, may_end, may_follow, may_follow_without_table};
use reference::legs::{terminators, RouteKind, ROUTE_KINDS};
use reference::Refusal;

/// The route types of 5.7.
const ROUTE_TYPES: [(&str, &str); 3] =
    [("D", "0123456FMSTV"), ("E", "123456789FMS"), ("F", "ABEFGIJKLMNPRTUVWXYZ")];

fn pairs() -> impl Iterator<Item = (&'static str, &'static str)> {
    terminators().flat_map(|before| terminators().map(move |leg| (before, leg)))
}

/// The terminators of which this holds.
fn those(holds: impl Fn(&str) -> bool) -> Vec<&'static str> {
    terminators().filter(|leg| holds(leg)).collect()
}

#[test]
fn the_terminators_are_the_23() {
    assert_eq!(terminators().count(), 23);
    assert!(terminators().all(|leg| needs(leg.as_bytes()).is_some()));
    assert!(terminators().zip(terminators().skip(1)).all(|(one, other)| one < other));
}

#[test]
fn the_table_differs_from_the_old_rule_in_one_cell() {
    assert_eq!(pairs().count(), 529);
    assert_eq!(pairs().filter(|(before, leg)| may_follow_without_table(before, leg)).count(), 366);
    assert_eq!(pairs().filter(|(before, leg)| may_follow(before, leg)).count(), 367);
    let differing: Vec<_> = pairs()
        .filter(|(before, leg)| may_follow(before, leg) != may_follow_without_table(before, leg))
        .collect();
    assert_eq!(differing, [("IF", "IF")]);
}

#[test]
fn every_route_type_has_one_row() {
    let has = |kind: &RouteKind, subsection: &str, route_type: &str| {
        kind.subsection == subsection && kind.route_types.split(' ').any(|other| other == route_type)
    };
    let mut count = 0;
    for (subsection, types) in ROUTE_TYPES {
        for route_type in types.chars().map(String::from) {
            let rows: Vec<usize> =
                (0..9).filter(|row| has(&ROUTE_KINDS[*row], subsection, &route_type)).collect();
            assert_eq!(rows.len(), 1, "{subsection} {route_type}");
            assert_eq!(kind_of(subsection, &route_type), Some(rows[0]));
            count += 1;
        }
    }
    let listed: usize = ROUTE_KINDS.iter().map(|kind| kind.route_types.split(' ').count()).sum();
    assert_eq!((count, listed), (44, 44));
}

#[test]
fn first_legs() {
    let somewhere = those(|leg| (0..9).any(|kind| may_begin(kind, leg)));
    assert_eq!(those(|leg| !somewhere.contains(&leg)), ["TF"]);
    let missed = kind_of("F", "Z").expect("a row");
    assert_eq!((0..9).filter(|kind| may_begin(*kind, "RF")).collect::<Vec<_>>(), [missed]);
    let counts: Vec<usize> = (0..9).map(|kind| those(|leg| may_begin(kind, leg)).len()).collect();
    assert_eq!(counts, [15, 16, 4, 3, 3, 4, 5, 1, 19]);
}

#[test]
fn last_legs() {
    let nowhere = those(|leg| !(0..9).any(|kind| may_end(kind, leg)));
    assert_eq!(nowhere, ["CD", "CR", "FA", "FC", "FD", "VD", "VR"]);
    let counts: Vec<usize> = (0..9).map(|kind| those(|leg| may_end(kind, leg)).len()).collect();
    assert_eq!(counts, [8, 6, 5, 5, 7, 7, 9, 9, 9]);
    // An approach ends as its missed approach does, which has CF and TF too.
    let ends = |route_type: &str| those(|leg| may_end(kind_of("F", route_type).expect("a row"), leg));
    assert_eq!(ends("I"), ends("Z"));
}

#[test]
fn the_legs_that_may_be_a_whole_route() {
    let alone = (0..9).map(|kind| those(|leg| may_begin(kind, leg) && may_end(kind, leg)).join(" "));
    assert_eq!(
        alone.collect::<Vec<_>>(),
        ["CF DF FM VM", "CF DF IF", "", "", "IF", "HF", "HF PI", "", "AF CA CF DF FM HM VA VM"]
    );
}

/// A record of a route: its subsection and route type, its sequence number, the
/// number in column 39 and the terminator.
fn record(route: &str, sequence: usize, number: &str, terminator: &str) -> Vec<u8> {
    let sequence = format!("{sequence:03}");
    let mut bytes = LEG.as_bytes().to_vec();
    let changes =
        [(13, &route[..1]), (20, &route[1..]), (27, &sequence), (39, number), (40, " "), (48, terminator)];
    for (first, content) in changes {
        bytes[first - 1..first - 1 + content.len()].copy_from_slice(content.as_bytes());
    }
    bytes
}

fn leg(route: &str, sequence: usize, terminator: &str) -> Vec<u8> {
    record(route, sequence, "0", terminator)
}

#[track_caller]
fn refused(file: &[Vec<u8>], number: u8, place: usize, column: usize) {
    assert_eq!(check(&file.concat()), Err(Refusal { number, place, column }));
}

#[track_caller]
fn accepted(file: &[Vec<u8>]) {
    assert_eq!(check(&file.concat()), Ok(()));
}

#[test]
fn a_leg_alone_is_a_beginning_and_then_an_ending() {
    accepted(&[leg("FZ", 10, "CF")]);
    refused(&[leg("FI", 10, "CF")], 8, 1, 48);
    refused(&[leg("FI", 10, "IF")], 8, 1, 49);
    refused(&[leg("D3", 10, "VD")], 8, 1, 48);
}

#[test]
fn a_pair_comes_before_an_ending() {
    refused(&[leg("D1", 10, "CA"), leg("D1", 20, "FC")], 8, 2, 48);
    refused(&[leg("D1", 10, "CF"), leg("D1", 20, "FC")], 8, 2, 49);
    accepted(&[leg("D1", 10, "CF"), leg("D1", 20, "FC"), leg("D1", 30, "DF")]);
    refused(&[leg("E2", 10, "IF"), leg("E2", 20, "VI"), leg("E2", 30, "IF")], 8, 3, 48);
    accepted(&[leg("E2", 10, "IF"), leg("E2", 20, "IF")]);
}

#[test]
fn continuations_are_looked_past() {
    let opening = record("FZ", 10, "1", "CI");
    let further = |number: &str| record("FZ", 10, number, "CI");
    accepted(&[opening.clone(), further("2"), leg("FZ", 20, "CF")]);
    refused(&[opening.clone(), further("2")], 8, 1, 49);
    refused(&[opening.clone(), further("7"), further("7")], 8, 1, 49);
    refused(&[opening.clone(), further("7"), leg("FZ", 20, "CF")], 6, 2, 39);
    // Neither 0 nor 1 nor the number of a continuation: a primary, which is bad itself.
    refused(&[opening.clone(), further("x")], 3, 2, 39);
    // Another route ends it, whatever the kind of the record.
    refused(&[opening.clone(), record("FA", 10, "2", "CI"), leg("FZ", 20, "CF")], 8, 1, 49);
    refused(&[opening], 8, 1, 49);
}

#[test]
fn what_lies_behind_is_judged_in_its_own_turn() {
    let mut cut_off = leg("FZ", 20, "CF");
    cut_off[LINE - 1] = b' ';
    let middle = leg("FZ", 10, "CI");
    refused(&[middle.clone(), cut_off.clone()], 1, 2, 133);
    refused(&[middle.clone(), cut_off[..LINE - 1].to_vec()], 8, 1, 49);
    refused(&[middle, record("FZ", 10, "2", "CI"), cut_off], 6, 2, 39);
}

/// The lines of a part of docs/LEG-TABLE.md, which a tool makes from the proved code's definitions.
fn part_of_the_document(name: &str) -> Vec<&'static str> {
    let document = include_str!("../../docs/LEG-TABLE.md");
    let from = format!("<!-- leg-table: {name} -->");
    document
        .lines()
        .skip_while(move |line| *line != from)
        .skip(1)
        .take_while(|line| *line != "<!-- leg-table: end -->")
        .collect()
}

#[test]
fn the_document_shows_the_same_pairs() {
    let part = part_of_the_document("judged");
    let rows: Vec<Vec<&str>> = part.iter().map(|line| line.split_whitespace().collect()).collect();
    assert_eq!(rows[1], terminators().collect::<Vec<_>>());
    assert!(rows.len() >= 2 + 23);
    for (before, row) in terminators().zip(&rows[2..]) {
        let cells = terminators().map(|leg| if may_follow(before, leg) { "+" } else { "-" });
        assert_eq!(*row, std::iter::once(before).chain(cells).collect::<Vec<_>>());
    }
}

#[test]
fn the_document_shows_the_same_beginnings_and_endings() {
    let part = part_of_the_document("kinds");
    assert!(part.len() >= 2 + ROUTE_KINDS.len());
    for ((place, kind), line) in (0..).zip(&ROUTE_KINDS).zip(&part[2..]) {
        let cells: Vec<&str> = line.split('|').map(str::trim).collect();
        assert_eq!(cells[2..4], [kind.subsection, kind.route_types]);
        assert_eq!(cells[4], those(|leg| may_begin(place, leg)).join(" "));
        assert_eq!(cells[5], those(|leg| may_end(place, leg)).join(" "));
    }
}
