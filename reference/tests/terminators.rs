//! The 23 terminators: of all pairs of bytes they alone are accepted, and the page
//! that is laid beside the standard is made from the definitions of the proved
//! code and says what this program says.

use std::collections::BTreeSet;
use std::path::Path;
use std::process::Command;

use reference::layout::needs;
use reference::legs::{may_begin, may_end, terminators, ROUTE_KINDS};
use reference::terminators::stored_files;

/// The line of a pair of bytes: none where already the first is that of no terminator.
fn line(pair: [u8; 2]) -> Option<String> {
    let named = (1..).zip(terminators()).find(|(_, name)| name.as_bytes() == pair);
    let [first, second] = pair;
    match named {
        Some((number, name)) => Some(format!("{name}\t{number}\t{name}\n")),
        None if b"ACDFHIPRTV".contains(&first) => Some(format!("no\t{first}\t{second}\t3\t49\n")),
        None => None,
    }
}

#[test]
fn of_all_pairs_the_23_are_accepted() {
    let [_, (_, answers)] = stored_files();
    let expected: String = (0..=u16::MAX).filter_map(|pair| line(pair.to_be_bytes())).collect();
    assert_eq!(String::from_utf8_lossy(&answers), expected + "accepted\t23\nrefused\t62976\n");
}

#[test]
fn the_page_is_made_from_the_definitions() {
    let tool = Path::new(env!("CARGO_MANIFEST_DIR")).join("../tools/terminators");
    let run = Command::new(tool).arg("--check").output().expect("tools/terminators can be run");
    let said = [run.stdout, run.stderr].concat();
    assert!(run.status.success(), "tools/terminators --check:\n{}", String::from_utf8_lossy(&said));
}

/// The rows of a part of docs/TERMINATORS.md, each as its cells.
fn rows_of_the_page(name: &str) -> Vec<Vec<&'static str>> {
    let page = include_str!("../../docs/TERMINATORS.md");
    let from = format!("<!-- terminators: {name} -->");
    let part = page.lines().skip_while(|line| *line != from).skip(1);
    let rows = part.take_while(|line| *line != "<!-- terminators: end -->").skip(2);
    rows.map(|line| line.trim_matches('|').split('|').map(str::trim).collect()).collect()
}

/// The name that the page has for a field that a terminator may need.
fn word(letter: char) -> &'static str {
    match letter {
        'F' => "fix",
        'T' => "turn",
        'N' => "navaid",
        'r' => "arc radius",
        'H' => "theta",
        'R' => "rho",
        'C' => "course",
        'D' => "distance",
        'A' => "first altitude",
        'c' => "centre fix",
        _ => panic!("no field has the letter {letter}"),
    }
}

/// The kinds of route for which this holds, by their numbers on the page.
fn kinds(holds: impl Fn(usize) -> bool) -> String {
    let numbers: Vec<String> =
        (0..ROUTE_KINDS.len()).filter(|kind| holds(*kind)).map(|kind| (kind + 1).to_string()).collect();
    if numbers.is_empty() {
        "none".to_string()
    } else {
        numbers.join(" ")
    }
}

#[test]
fn the_page_says_what_this_program_says() {
    let rows = rows_of_the_page("list");
    assert_eq!(rows.len(), 23);
    for ((number, name), row) in (1..).zip(terminators()).zip(&rows) {
        let [_, place, named, _, _, needed, begins, ends] = row[..] else { panic!("{row:?}") };
        assert_eq!((place, named), (number.to_string().as_str(), name));
        let own = needs(name.as_bytes()).expect("a terminator").chars().map(word);
        assert_eq!(needed.split(", ").collect::<BTreeSet<_>>(), own.collect(), "{name}");
        assert_eq!(begins, kinds(|kind| may_begin(kind, name)), "{name}");
        assert_eq!(ends, kinds(|kind| may_end(kind, name)), "{name}");
    }
}

#[test]
fn the_page_has_the_same_kinds_of_route() {
    let rows = rows_of_the_page("kinds");
    assert_eq!(rows.len(), ROUTE_KINDS.len());
    for ((number, kind), row) in (1..).zip(&ROUTE_KINDS).zip(&rows) {
        let [place, _, subsection, types] = row[..] else { panic!("{row:?}") };
        assert_eq!(place, number.to_string());
        assert_eq!((subsection, types), (kind.subsection, kind.route_types));
    }
}
