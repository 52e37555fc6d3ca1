//! One record alone: from its 133 bytes to parts, and from parts to 133 bytes.

use crate::judge::{judge, judge_parts};
use crate::layout::continues;
use crate::parts::{Continuation, Frame, Leg, Parts};
use crate::Refusal;

/// Reads one record alone: 132 columns and a line feed.
pub fn read(bytes: &[u8]) -> Result<Parts, Refusal> {
    let refuse = |number, column| Refusal { number, place: 1, column };
    match bytes.get(132) {
        None => return Err(refuse(1, bytes.len() + 1)),
        Some(b'\n') => {}
        Some(_) => return Err(refuse(1, 133)),
    }
    if bytes.len() > 133 {
        return Err(refuse(1, 134));
    }
    let rec = &bytes[..132];
    judge(rec).map_err(|(number, column)| refuse(number, column))?;
    let frame = Frame::take(rec);
    Ok(match continues(frame.continuation_number) {
        true => Parts::Continuation(frame, Continuation::take(rec)),
        false => Parts::Leg(frame, Leg::take(rec)),
    })
}

/// Writes parts as one record with its line feed; what was put together is
/// judged by its columns, and a field that is bad is named by its first.
pub fn write(parts: &Parts) -> Result<[u8; 133], Refusal> {
    let mut record = [b' '; 133];
    record[4] = b'P';
    record[132] = b'\n';
    let frame = match parts {
        Parts::Leg(frame, leg) => {
            leg.put(&mut record);
            frame
        }
        Parts::Continuation(frame, continuation) => {
            continuation.put(&mut record);
            frame
        }
    };
    frame.put(&mut record);
    // A number of the other kind is the content of no column 39 of this one.
    let numbered = matches!(parts, Parts::Continuation(..));
    if continues(frame.continuation_number) != numbered {
        record[38] = 0;
    }
    match judge_parts(&record[..132]) {
        Ok(()) => Ok(record),
        Err((number, column)) => Err(Refusal { number, place: 0, column }),
    }
}
