//! A correction log as text: its length, and line by line what is wrong with
//! it (9), one correction or one put-in record too many (13).

use crate::Refusal;

/// What a log says: how many corrections it has, and its D and A lines.
#[derive(Clone, Debug, PartialEq, Eq)]
pub struct Log {
    pub corrections: usize,
    pub changes: Vec<Change>,
}

/// A D or A line: its letter, the offset of its record, its correction.
#[derive(Clone, Copy, Debug, PartialEq, Eq)]
pub struct Change {
    pub letter: u8,
    pub at: usize,
    pub correction: usize,
}

const LONGEST_LOG: usize = 60_000;
const MOST_CORRECTIONS: usize = 200;
const MOST_RECORDS: usize = 480;
/// The letter, a tab, a record and a line feed.
const CHANGE: usize = 135;

/// Refuses a log that is too long, whatever it says.
pub fn check_length(log: &[u8]) -> Result<(), Refusal> {
    match log.len() {
        0..=LONGEST_LOG => Ok(()),
        _ => Err(limit(0)),
    }
}

fn limit(place: usize) -> Refusal {
    Refusal { number: 13, place, column: 0 }
}

pub fn read(log: &[u8], frozen: usize) -> Result<Log, Refusal> {
    check_length(log)?;
    let mut said = Log { corrections: 0, changes: Vec::new() };
    let mut records = frozen;
    let (mut at, mut line) = (0, 0);
    while at < log.len() {
        line += 1;
        let length = line_at(&log[at..], said.corrections).map_err(|column| Refusal {
            number: 9,
            place: line,
            column,
        })?;
        match log[at] {
            b'C' if said.corrections == MOST_CORRECTIONS => return Err(limit(line)),
            b'C' => said.corrections += 1,
            letter => {
                if letter == b'A' {
                    if records >= MOST_RECORDS {
                        return Err(limit(line));
                    }
                    records += 1;
                }
                said.changes.push(Change { letter, at: at + 2, correction: said.corrections });
            }
        }
        at += length;
    }
    Ok(said)
}

/// The length of the line in front, or the first byte of it, counted from 1,
/// with which it begins no line that is good after so many corrections.
fn line_at(rest: &[u8], corrections: usize) -> Result<usize, usize> {
    let heading = format!("C\t{}\n", corrections + 1).into_bytes();
    for length in 1..=rest.len() {
        let line = &rest[..length];
        let headed = heading.starts_with(line);
        let changed = corrections > 0 && begins_change(line);
        if !headed && !changed {
            return Err(length);
        }
        if line == heading || changed && length == CHANGE {
            return Ok(length);
        }
    }
    Err(rest.len() + 1)
}

/// Whether these bytes begin a D or A line.
fn begins_change(line: &[u8]) -> bool {
    line.iter().enumerate().all(|(at, byte)| match at {
        0 => matches!(byte, b'D' | b'A'),
        1 => *byte == b'\t',
        2..=133 => (32..=126).contains(byte),
        134 => *byte == b'\n',
        _ => false,
    })
}
