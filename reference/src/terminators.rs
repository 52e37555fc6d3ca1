//! Every pair of bytes in the columns of the path terminator, and what this
//! program says of a good leg that has it there.

use crate::cases::LEG;
use crate::judge::judge;
use crate::legs::terminators;
use crate::record::{read, write};
use crate::Stored;

/// The columns of a record, counted from 0, that name its terminator.
const PLACE: std::ops::Range<usize> = 47..49;

/// The leg, and the answers.
pub fn stored_files() -> [Stored; 2] {
    [
        ("../crates/vectors_terminators/data/record.txt", LEG.as_bytes().to_vec()),
        ("../crates/vectors_terminators/stdout", answers()),
    ]
}

/// A line for each pair that is accepted: its bytes, its number in the list and
/// the name that the leg has when it is written again. A line for each that is
/// refused otherwise than by 3 at column 48, so at 49 where a terminator begins
/// with its first byte. And how many are accepted, and how many refused at 48.
fn answers() -> Vec<u8> {
    let mut lines = Vec::new();
    let (mut accepted, mut refused) = (0, 0);
    for pair in 0..=u16::MAX {
        let pair = pair.to_be_bytes();
        let record = leg_with(pair);
        match judge(&record[..132]) {
            Ok(()) => {
                let number = format!("\t{}\t", number(pair));
                lines.extend([&pair, number.as_bytes(), &written(&record), b"\n"].concat());
                accepted += 1;
            }
            Err((3, 48)) => refused += 1,
            Err((number, column)) => {
                lines.extend(format!("no\t{}\t{}\t{number}\t{column}\n", pair[0], pair[1]).into_bytes());
            }
        }
    }
    lines.extend(format!("accepted\t{accepted}\nrefused\t{refused}\n").into_bytes());
    lines
}

fn leg_with(pair: [u8; 2]) -> Vec<u8> {
    let mut record = LEG.as_bytes().to_vec();
    record[PLACE].copy_from_slice(&pair);
    record
}

/// The place of a name in the standard's order, counted from 1; 0 for none.
fn number(pair: [u8; 2]) -> usize {
    terminators().position(|name| name.as_bytes() == pair).map_or(0, |place| place + 1)
}

/// The name that a record has when it was read and is written again.
fn written(record: &[u8]) -> Vec<u8> {
    let back = read(record).and_then(|parts| write(&parts));
    back.map_or_else(|_| Vec::new(), |bytes| bytes[PLACE].to_vec())
}
