//! In which way a leg is refused by 8, and in which kind of route.

use reference::file::LINE;
use reference::legs::kind_of;
use reference::Refusal;

pub const WAYS: [&str; 3] = ["beginning", "pair", "ending"];

/// The row of a record's kind of route, by its place in the table.
pub fn row(record: &[u8]) -> usize {
    let column = |at: usize| std::str::from_utf8(&record[at..=at]).expect("a code is text");
    kind_of(column(12), column(19)).expect("a row")
}

/// Which of the three ways a file refused by 8 fails in, and in which row.
pub fn way(file: &[u8], refusal: Refusal) -> (&'static str, usize) {
    let record = |place: usize| &file[(place - 1) * LINE..place * LINE];
    let own = record(refusal.place);
    let follows = refusal.place > 1 && record(refusal.place - 1)[..25] == own[..25];
    let way = match refusal.column {
        48 if follows => 1,
        48 => 0,
        _ => 2,
    };
    (WAYS[way], row(own))
}
