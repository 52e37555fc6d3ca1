//! The judgement of a whole file: its size (2), and record by record the line
//! (1), the record alone (3, 4, 5), continuations (6), order (7), legs (8). A leg
//! is judged as the first or behind the one before it, and then, where it is the
//! last of its route, as the last.

use std::cmp::Ordering;

use crate::judge::{is_continuation, judge};
use crate::layout::{columns, continues};
use crate::legs::{kind_of, may_begin, may_end, may_follow};
use crate::Refusal;

/// A record with its line feed.
pub const LINE: usize = 133;
const MOST_RECORDS: usize = 480;

pub fn check(file: &[u8]) -> Result<(), Refusal> {
    if file.len() > MOST_RECORDS * LINE {
        return Err(Refusal { number: 2, place: MOST_RECORDS + 1, column: 0 });
    }
    let mut walk = Walk::default();
    let mut place = 0;
    for line in file.chunks(LINE) {
        place += 1;
        let refuse = |number, column| Err(Refusal { number, place, column });
        if line.len() < LINE {
            return refuse(1, line.len() + 1);
        }
        if line[LINE - 1] != b'\n' {
            return refuse(1, LINE);
        }
        // What lies behind is looked at by its columns, whatever its line ends with; a piece cut short is not.
        let ahead = file[place * LINE..].chunks_exact(LINE).map(|line| &line[..LINE - 1]);
        if let Err((number, column)) = walk.take(&line[..LINE - 1], ahead) {
            return refuse(number, column);
        }
    }
    match walk.number {
        Some(b'1') => Err(Refusal { number: 6, place: place + 1, column: 39 }),
        _ => Ok(()),
    }
}

/// What has been passed: the last primary, and the continuation number of the
/// last record.
#[derive(Default)]
struct Walk<'a> {
    primary: Option<&'a [u8]>,
    number: Option<u8>,
}

impl<'a> Walk<'a> {
    /// Takes one more record, with those that lie behind it.
    fn take(&mut self, rec: &'a [u8], ahead: impl Iterator<Item = &'a [u8]>) -> Result<(), (u8, usize)> {
        judge(rec)?;
        let number = rec[38];
        if continues(number) {
            self.continued(rec)?;
        } else {
            if self.number == Some(b'1') {
                return Err((6, 39));
            }
            self.in_order(rec)?;
            if is_last(rec, ahead) && !may_end(kind(rec), terminator(rec)) {
                return Err((8, 49));
            }
            self.primary = Some(rec);
        }
        self.number = Some(number);
        Ok(())
    }

    fn continued(&self, rec: &[u8]) -> Result<(), (u8, usize)> {
        let follower = self.number.and_then(next_number);
        let (Some(primary), true) = (self.primary, follower == Some(rec[38])) else {
            return Err((6, 39));
        };
        match (0..38).find(|at| rec[*at] != primary[*at]) {
            Some(at) => Err((6, at + 1)),
            None => Ok(()),
        }
    }

    fn in_order(&self, rec: &[u8]) -> Result<(), (u8, usize)> {
        let before = self.primary.map(|primary| (primary, route(primary).cmp(route(rec))));
        let stands = match before {
            Some((_, Ordering::Greater)) => return Err((7, 1)),
            Some((primary, Ordering::Equal)) => {
                if columns(primary, (27, 29)) >= columns(rec, (27, 29)) {
                    return Err((7, 27));
                }
                may_follow(terminator(primary), terminator(rec))
            }
            _ => may_begin(kind(rec), terminator(rec)),
        };
        if stands {
            Ok(())
        } else {
            Err((8, 48))
        }
    }
}

pub(crate) fn route(rec: &[u8]) -> &[u8] {
    columns(rec, (1, 25))
}

/// A field of a record that was judged good.
fn text(rec: &[u8], field: (usize, usize)) -> &str {
    std::str::from_utf8(columns(rec, field)).expect("a code is text")
}

pub(crate) fn terminator(rec: &[u8]) -> &str {
    text(rec, (48, 49))
}

/// The row of a leg's route in the table of first and last legs.
pub(crate) fn kind(rec: &[u8]) -> usize {
    kind_of(text(rec, (13, 13)), text(rec, (20, 20))).expect("each route type has its row")
}

/// Whether no primary comes behind a leg before its route ends. Continuations
/// are looked past, however they are numbered.
fn is_last<'a>(leg: &[u8], ahead: impl Iterator<Item = &'a [u8]>) -> bool {
    ahead.take_while(|rec| route(rec) == route(leg)).all(is_continuation)
}

/// 1 to 9, then A to Z.
fn next_number(number: u8) -> Option<u8> {
    match number {
        b'9' => Some(b'A'),
        b'1'..=b'8' | b'A'..=b'Y' => Some(number + 1),
        _ => None,
    }
}
