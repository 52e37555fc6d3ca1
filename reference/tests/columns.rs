//! The worked vectors of the columns: the proof's answers are this program's, and
//! every field is met.

use std::collections::BTreeSet;

use reference::columns;
use reference::judge::{first_bad, is_continuation};
use reference::layout::{Field, CONTINUATION, HEAD, PRIMARY, TAIL};

#[test]
fn the_proof_gives_what_this_program_answers() {
    for (number, vector) in (1..).zip(columns::all()) {
        assert_eq!(columns::answered(&vector.record), vector.proved, "vector {number}");
    }
}

#[test]
fn there_are_as_many_as_the_documents_say() {
    assert_eq!(columns::all().len(), 184);
}

/// The first columns of the fields that some record of a kind is refused at.
fn met(continuation: bool) -> BTreeSet<usize> {
    let records = columns::all().into_iter().map(|vector| vector.record);
    records
        .filter(|record| is_continuation(record) == continuation)
        .filter_map(|record| first_bad(&record))
        .collect()
}

#[test]
fn every_field_is_met_with_bad_content() {
    let firsts =
        |fields: &mut dyn Iterator<Item = &Field>| fields.map(|field| field.0).collect::<BTreeSet<_>>();
    assert_eq!(met(false), firsts(&mut HEAD.iter().chain(PRIMARY).chain(TAIL)));
    // The number in column 39 is never bad: with another the record is a primary.
    assert!(met(true).is_superset(&firsts(&mut CONTINUATION[1..].iter())));
}
