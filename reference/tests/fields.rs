//! The fields in plain words, tools/fields.txt: one for each row of the proved
//! code's layout, in its order, at the columns that this program has too.

use std::collections::{BTreeMap, BTreeSet};

use reference::calendar::cycles;
use reference::layout::{CONTINUATION, HEAD, PRIMARY, TAIL};
use reference::legs::terminators;

const TABLE: &str = include_str!("../../tools/fields.txt");
const LAYOUT: &str = include_str!("../../crates/columns/specs/Layout.antt");

/// The parts of a layout in their order, each with the records that have it.
const PARTS: [(&str, &str); 4] =
    [("front", "both"), ("leg", "primary"), ("application", "continuation"), ("back", "both")];

/// A line of the table.
#[derive(Debug)]
struct Line {
    columns: (usize, usize),
    records: &'static str,
    name: &'static str,
    holds: &'static str,
}

fn number(digits: &str) -> usize {
    digits.parse().unwrap_or_else(|_| panic!("{digits:?} is no number"))
}

fn table() -> Vec<Line> {
    let lines = TABLE.lines().filter(|line| !line.starts_with('#'));
    let cells = lines.map(|line| line.split('\t').collect::<Vec<_>>());
    cells
        .map(|cells| {
            let [first, last, records, name, holds] = cells[..] else { panic!("{cells:?}") };
            Line { columns: (number(first), number(last)), records, name, holds }
        })
        .collect()
}

/// The rows of a part of the layout: first and last column, and what the row says
/// of its content on its first line.
fn rows(part: &str) -> Vec<((usize, usize), &'static str)> {
    let from = format!("{part} =");
    let lines = LAYOUT.lines().skip_while(|line| *line != from).skip(1).map(str::trim);
    let rows = lines.take_while(|line| *line != "[]").filter(|line| !line.starts_with('('));
    rows.map(|line| {
        let row = line.split("  --").next().unwrap().trim_end_matches(" ∷");
        let words: Vec<&str> = row.splitn(4, ' ').collect();
        assert!(["row", "guarded"].contains(&words[0]), "{line}");
        let (column, width) = (number(words[1]), number(words[2]));
        ((column, column + width - 1), words.get(3).copied().unwrap_or(""))
    })
    .collect()
}

#[test]
fn the_table_has_the_rows_of_the_layout() {
    let expected = PARTS.iter().flat_map(|(part, records)| {
        let rows = rows(part);
        assert!(!rows.is_empty(), "{part}");
        rows.into_iter().map(|(columns, _)| (columns, *records))
    });
    let table: Vec<_> = table().iter().map(|line| (line.columns, line.records)).collect();
    assert_eq!(table, expected.collect::<Vec<_>>());
}

#[test]
fn the_table_has_the_columns_of_this_program() {
    let own = [HEAD, PRIMARY, CONTINUATION, TAIL].into_iter().flatten();
    let table: Vec<_> = table().iter().map(|line| line.columns).collect();
    assert_eq!(table, own.map(|field| (field.0, field.1)).collect::<Vec<_>>());
}

#[test]
fn every_field_has_a_name_of_its_own_and_words() {
    for kind in ["primary", "continuation"] {
        let mut names = BTreeSet::new();
        for line in table().iter().filter(|line| ["both", kind].contains(&line.records)) {
            assert!(names.insert(line.name), "{line:?} has a name that another has");
        }
    }
    for line in table() {
        for words in [line.name, line.holds] {
            assert!(!words.is_empty() && words == words.trim(), "{line:?}");
        }
    }
    assert!(TABLE.ends_with('\n') && TABLE.is_ascii());
    assert!(TABLE.lines().all(|line| line.len() <= 200));
}

/// Things one after the other: A, B or C.
fn listed<T: ToString>(things: impl IntoIterator<Item = T>, word: &str) -> String {
    let things: Vec<String> = things.into_iter().map(|thing| thing.to_string()).collect();
    match &things[..] {
        [things @ .., last] if !things.is_empty() => format!("{} {word} {last}", things.join(", ")),
        _ => things.concat(),
    }
}

/// The texts in quotes.
fn quoted(text: &str) -> Vec<&str> {
    text.split('"').skip(1).step_by(2).collect()
}

#[test]
fn codes_are_listed_as_the_layout_has_them() {
    let rows = PARTS.iter().flat_map(|(part, _)| rows(part));
    for (line, (_, content)) in table().iter().zip(rows) {
        if content.starts_with("(each ") {
            let codes = quoted(content)[0].chars();
            let codes = listed(codes.map(|code| code.to_string().replace(' ', "a blank")), "or");
            // The continuation number of a primary says besides what a continuation has.
            assert_eq!(line.holds.split(", or in ").next(), Some(codes.as_str()), "{line:?}");
        }
    }
    let holds = |column| table().iter().find(|line| line.columns.0 == column).map(|line| line.holds);
    assert_eq!(holds(48), Some(listed(terminators(), "or").as_str()));
    let types = LAYOUT.lines().find(|line| line.starts_with("    (when 13 ")).map(quoted).unwrap();
    let types = types.chunks(2).map(|pair| format!("one of {} with {} in column 13", pair[1], pair[0]));
    assert_eq!(holds(20), Some(listed(types, "or").as_str()));
    let years = listed((0..100).filter(|year| cycles(*year) == 14), "and");
    assert!(holds(129).unwrap().ends_with(&format!(", or 14 in the years {years}")));
}

#[test]
fn fields_of_one_content_have_the_same_words() {
    let mut words = BTreeMap::new();
    let rows = PARTS.iter().flat_map(|(part, _)| rows(part));
    for (line, (_, content)) in table().iter().zip(rows) {
        assert_eq!(*words.entry(content).or_insert(line.holds), line.holds, "{line:?}");
    }
}
