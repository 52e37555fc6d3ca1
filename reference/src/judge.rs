//! The judgement of the 132 columns of one record: field content (3), then on
//! a primary the companions (4) and the needed fields (5).

use crate::layout::{
    blank, columns, continues, needed_columns, needs, Field, Test, CENTRE, CONTINUATION, FIX, HEAD, NAVAID,
    PRIMARY, TAIL,
};

/// Accepts the columns of a record that is read, or gives the refusal number and
/// the column. Of bad content that is the bad byte's.
pub fn judge(rec: &[u8]) -> Result<(), (u8, usize)> {
    judge_with(bad_byte(rec), rec)
}

/// The same of a record put together from parts. Of bad content the column is the
/// field's first, wherever in the field the trouble lies.
pub fn judge_parts(rec: &[u8]) -> Result<(), (u8, usize)> {
    judge_with(first_bad(rec), rec)
}

/// All stages, where bad content has this column.
fn judge_with(bad_content: Option<usize>, rec: &[u8]) -> Result<(), (u8, usize)> {
    if let Some(column) = bad_content {
        return Err((3, column));
    }
    if is_continuation(rec) {
        return Ok(());
    }
    if let Some(column) = blank_companion(rec) {
        return Err((4, column));
    }
    match blank_needed(rec) {
        Some(column) => Err((5, column)),
        None => Ok(()),
    }
}

/// Whether the columns are judged as a continuation.
pub fn is_continuation(rec: &[u8]) -> bool {
    rec.get(38).is_some_and(|number| continues(*number))
}

/// The leftmost field that holds nothing legal. A byte that is missing is legal in
/// no field.
fn bad_field(rec: &[u8]) -> Option<&'static Field> {
    let middle = if is_continuation(rec) { CONTINUATION } else { PRIMARY };
    let mut fields = HEAD.iter().chain(middle).chain(TAIL);
    fields.find(|Field(first, last, holds, _)| !passes(rec, (*first, *last), *holds))
}

/// Whether the columns are there and pass a test.
fn passes(rec: &[u8], (first, last): (usize, usize), test: Test) -> bool {
    rec.get(first - 1..last).is_some_and(|bytes| test(bytes, rec))
}

/// The first column of the leftmost field that holds nothing legal.
pub fn first_bad(rec: &[u8]) -> Option<usize> {
    bad_field(rec).map(|field| field.0)
}

/// The first column of that field at which the bytes so far begin no content that
/// would be legal there.
pub fn bad_byte(rec: &[u8]) -> Option<usize> {
    let Field(first, last, _, begins) = bad_field(rec)?;
    let begun = (*first..=*last).take_while(|column| passes(rec, (*first, *column), *begins));
    Some(first + begun.count())
}

/// The first blank member of the leftmost group that is neither all filled nor
/// all blank.
fn blank_companion(rec: &[u8]) -> Option<usize> {
    [FIX, NAVAID, CENTRE].iter().find_map(|group| {
        let mut blanks = group.iter().filter(|member| blank(columns(rec, **member)));
        let first = blanks.next()?.0;
        let count = 1 + blanks.count();
        (count < group.len()).then_some(first)
    })
}

/// The lowest column of a field that the terminator or altitude description B
/// needs and that is blank.
fn blank_needed(rec: &[u8]) -> Option<usize> {
    let by_terminator = needs(columns(rec, (48, 49))).unwrap_or("").chars().map(needed_columns);
    let by_description: &[_] = match rec[82] {
        b'B' => &[(85, 89), (90, 94)],
        _ => &[],
    };
    by_terminator
        .chain(by_description.iter().copied())
        .filter(|field| blank(columns(rec, *field)))
        .map(|field| field.0)
        .min()
}
