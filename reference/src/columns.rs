//! The worked vectors of the columns, and what this program says of them: the
//! kind of each record, its leftmost field that holds nothing legal, and the byte
//! of that field at which no legal content can go on.
//!
//! The records are those that the proof of the columns computes, as its text and
//! that of its sample records have them: `NAME`, `[]` or `codes "TEXT"`, with `at COLUMN is "TEXT"` and
//! `at COLUMN holds BYTE` behind it, `take N` in front, `++ codes "TEXT"` at the
//! end. The answer that stands there behind `gives`, a column for both or one for
//! the field and behind `byte` one for the byte, decides nothing here; the tests
//! hold it to the judgement.

use std::collections::HashMap;

use crate::judge::{bad_byte, first_bad, is_continuation};
use crate::Stored;

const SAMPLES: &str = include_str!("../../crates/columns/specs/Samples.antt");
const PROOF: &str = include_str!("../../crates/columns/proofs/Vectors.antt");

/// A record, and the two answers that the proof gives it.
pub struct Vector {
    pub record: Vec<u8>,
    pub proved: Columns,
}

/// The first column of the bad field, and the column of the bad byte; 0 for none.
pub type Columns = (usize, usize);

/// The records, a line each, and the answers.
pub fn stored_files() -> [Stored; 2] {
    let set = all();
    let lines = set.iter().flat_map(|vector| [&vector.record[..], b"\n"].concat());
    let answers: String = set.iter().map(|vector| answer(&vector.record)).collect();
    [
        ("../crates/vectors_columns/data/records.txt", lines.collect()),
        ("../crates/vectors_columns/stdout", answers.into_bytes()),
    ]
}

fn answer(record: &[u8]) -> String {
    let kind = if is_continuation(record) { "continuation" } else { "primary" };
    let (field, byte) = answered(record);
    format!("{kind}\t{field}\t{byte}\n")
}

/// What this program answers.
pub fn answered(record: &[u8]) -> Columns {
    (first_bad(record).unwrap_or(0), bad_byte(record).unwrap_or(0))
}

pub fn all() -> Vec<Vector> {
    let mut named = HashMap::new();
    let mut vectors = Vec::new();
    let mut name = "";
    for line in SAMPLES.lines().chain(PROOF.lines()) {
        if let Some((text, proved)) = line.strip_suffix(" ∷").and_then(|line| line.rsplit_once(" gives ")) {
            let record = record(&words(text), &named).unwrap_or_else(|| panic!("no record: {text}"));
            let proved = columns(proved).unwrap_or_else(|| panic!("no answer: {proved}"));
            vectors.push(Vector { record, proved });
            continue;
        }
        // What a name stands for may be on the next line.
        let text;
        (name, text) = line.split_once(" =").unwrap_or((name, line));
        if let Some(record) = record(&words(text), &named) {
            named.insert(name, record);
        }
    }
    vectors
}

/// The two columns that an answer stands for.
fn columns(proved: &str) -> Option<Columns> {
    let (field, byte) = proved.split_once(" byte ").unwrap_or((proved, proved));
    Some((field.parse().ok()?, byte.parse().ok()?))
}

/// The words of a record's text; what stands between quotes is one of them.
fn words(text: &str) -> Vec<&str> {
    text.split('"')
        .enumerate()
        .flat_map(|(number, piece)| match number % 2 {
            0 => piece.split([' ', '(', ')']).filter(|word| !word.is_empty()).collect(),
            _ => vec![piece],
        })
        .collect()
}

/// The record that the words make; none where they make no record.
fn record(words: &[&str], named: &HashMap<&str, Vec<u8>>) -> Option<Vec<u8>> {
    match words {
        [base @ .., "at", column, "is", text] => changed(record(base, named)?, column, text.as_bytes()),
        [base @ .., "at", column, "holds", byte] => {
            changed(record(base, named)?, column, &[byte.parse().ok()?])
        }
        [base @ .., "++", "codes", text] => Some([&record(base, named)?, text.as_bytes()].concat()),
        ["take", count, base @ ..] => record(base, named)?.get(..count.parse().ok()?).map(<[u8]>::to_vec),
        ["codes", text] => Some(text.as_bytes().to_vec()),
        ["[]"] => Some(Vec::new()),
        [name] => named.get(name).cloned(),
        _ => None,
    }
}

/// A record with other content from a column on.
fn changed(mut record: Vec<u8>, column: &str, content: &[u8]) -> Option<Vec<u8>> {
    let from = column.parse::<usize>().ok()?.checked_sub(1)?;
    record.get_mut(from..from + content.len())?.copy_from_slice(content);
    Some(record)
}
