//! How the set of picks is stored, and what this program answers to it.
//!
//! The records are kept once, each with a line feed. The cases are kept as
//! instructions of three bytes:
//!
//! - 0, 0, 0: the case is whole, and the next one begins, with nothing wanted and a buffer of 63,840 bytes
//! - 1, h, l: the record 256 h + l, counted from 0, and a line feed to the frozen file
//! - 2, b, n: the byte b, n times, to the frozen file
//! - 3, h, l: the last 256 h + l bytes of the frozen file taken away
//! - 4, h, l: a D line of the record 256 h + l to the log
//! - 5, h, l: an A line of the record 256 h + l to the log
//! - 6, h, l: C, a tab, the number 256 h + l and a line feed to the log
//! - 7, b, n: the byte b, n times, to the log
//! - 8, h, l: the last 256 h + l bytes of the log taken away
//! - 9, h, l: the number 256 h + l is wanted too
//! - 10, h, l: the last wanted number times 65,536, and 256 h + l more
//! - 11, h, l: the buffer has 256 h + l bytes
//! - 12, 0, 0: the frozen file begins as all of that of the case before
//! - 13, 0, 0: the log begins as all of that of the case before

use std::collections::HashMap;

use crate::file::LINE;
use crate::pick::{check_log, failing, new_file, pick, reasons, Cause, Picked, Reason, Why, ROOM};
use crate::picks::{all, Case};
use crate::{Refusal, Stored};

/// The stored set of picks and the answers.
pub fn stored_files() -> [Stored; 3] {
    let set = all();
    let (records, instructions) = instructions(&set);
    let answers: String = (1..).zip(&set).map(|(number, case)| answer(number, case)).collect();
    [
        ("../crates/vectors_pick/data/records.bin", records),
        ("../crates/vectors_pick/data/cases.bin", instructions),
        ("../crates/vectors_pick/stdout", answers.into_bytes()),
    ]
}

// ---- answers

/// One more number in a check sum, which is a number below 4,294,967,291.
fn rolled(sum: u64, number: usize) -> u64 {
    (sum * 257 + number as u64 + 1) % 4_294_967_291
}

/// The check sum of these bytes.
pub(crate) fn sum(bytes: &[u8]) -> u64 {
    bytes.iter().fold(0, |sum, byte| rolled(sum, usize::from(*byte)))
}

/// All places of an array, which are 0 past the last number.
fn places(numbers: &[usize], most: usize) -> Vec<usize> {
    [numbers, &vec![0; most - numbers.len()]].concat()
}

/// The check sum of an answer by value: two counts, each with all places of its
/// array.
fn answer_sum(picked: Option<&Picked>) -> u64 {
    let (taken, sources): (&[usize], &[usize]) =
        picked.map_or((&[], &[]), |picked| (&picked.taken, &picked.sources));
    let numbers = [vec![taken.len()], places(taken, 200), vec![sources.len()], places(sources, 480)].concat();
    numbers.into_iter().fold(0, rolled)
}

/// What is wrong with a log that is refused by 10 or 11: the line and the offset
/// of its record, or the route's own refusal and the sources of its records.
#[derive(Default)]
struct Wrong {
    line: usize,
    at: usize,
    /// Its number, place and column.
    inner: [usize; 3],
    sources: Vec<usize>,
}

impl Wrong {
    fn of(frozen: &[u8], log: &[u8]) -> Wrong {
        match failing(frozen, log).map(|failure| failure.cause) {
            None => Wrong::default(),
            Some(Cause::Line(line)) => {
                let before = log.split_inclusive(|byte| *byte == b'\n').take(line - 1);
                // Behind the letter and the tab.
                Wrong { line, at: before.map(<[u8]>::len).sum::<usize>() + 2, ..Wrong::default() }
            }
            Some(Cause::Route { sources, refusal: Refusal { number, place, column }, .. }) => {
                Wrong { inner: [usize::from(number), place, column], sources, ..Wrong::default() }
            }
        }
    }

    /// All numbers up to the count of the sources.
    fn head(&self) -> Vec<usize> {
        [&[self.line, self.at], &self.inner[..], &[self.sources.len()]].concat()
    }

    fn sum(&self) -> u64 {
        [self.head(), places(&self.sources, 480)].concat().into_iter().fold(0, rolled)
    }
}

/// A correction that is taken, the one that relies on it, and the source; zeros
/// for one that is wanted.
fn triple(reason: &Reason) -> [usize; 3] {
    match reason.why {
        Why::Wanted => [reason.correction, 0, 0],
        Why::For { correction, source } => [reason.correction, correction, source],
    }
}

/// The check sum of all reasons, and of what is wrong where there are none.
fn explained_sum(triples: &[[usize; 3]], wrong: &Wrong) -> u64 {
    let column = |which: usize| {
        let numbers: Vec<usize> = triples.iter().map(|triple| triple[which]).collect();
        places(&numbers, 200)
    };
    [vec![triples.len()], column(0), column(1), column(2)].concat().into_iter().fold(wrong.sum(), rolled)
}

fn verdict<T>(answer: &Result<T, Refusal>) -> String {
    match answer {
        Ok(_) => "yes".to_string(),
        Err(refusal) => format!("no\t{}\t{}\t{}", refusal.number, refusal.place, refusal.column),
    }
}

/// Tabs and numbers.
fn shown(numbers: impl IntoIterator<Item = usize>) -> String {
    numbers.into_iter().map(|number| format!("\t{number}")).collect()
}

/// The lines of one case: what checking the log says, and what is wrong with it;
/// what picking says, with the corrections taken and the records' sources; what
/// explaining the pick says, with the reasons; what making the new file says;
/// check sums of the answers by value and of the lent buffer; and the length and
/// the check sum of some lines of the new file.
fn answer(number: usize, case: &Case) -> String {
    let Case { frozen, log, wanted, room } = case;
    let checked = check_log(frozen, log);
    let wrong = Wrong::of(frozen, log);
    let picked = pick(frozen, log, wanted);
    let made = new_file(frozen, log, wanted, *room);
    let counts = picked.as_ref().map_or(String::new(), |picked| {
        let counts = [picked.taken.len(), picked.sources.len()];
        shown(counts.iter().chain(&picked.taken).chain(&picked.sources).copied())
    });
    let explained = reasons(frozen, log, wanted);
    let triples: Vec<[usize; 3]> = explained.iter().flatten().map(triple).collect();
    let whys =
        explained.as_ref().map_or(String::new(), |_| shown([vec![triples.len()], triples.concat()].concat()));
    // A wanted number that no correction has comes before what is wrong with any of them.
    let wrong_explained = match explained {
        Err(Refusal { number: 12, .. }) => Wrong::default(),
        _ => Wrong::of(frozen, log),
    };
    let mut lent = made.clone().unwrap_or_default();
    lent.resize(*room, 0);
    let accepted = picked.as_ref().ok();
    let sums = [
        answer_sum(accepted),
        answer_sum(accepted.filter(|_| made.is_ok())),
        sum(&lent),
        wrong.sum(),
        explained_sum(&triples, &wrong_explained),
    ];
    let records: &[&[u8]] = accepted.map_or(&[], |picked| &picked.records);
    let line = |n: usize| n.checked_sub(1).and_then(|at| records.get(at)).copied().unwrap_or_default();
    let (half, last) = (records.len().div_ceil(2), records.len());
    // The lines that are asked of an answer; one of the same answer made a refusal, which has none; and those
    // that are picked for each.
    let asked = [0, 1, half, last, last + 1, usize::MAX].map(line);
    let lines = [&asked[..], &[&[]], &[half, last + 1].map(line)].concat();
    format!(
        "case\t{number}\t{}\nfails{}\npick\t{}{counts}\nwhy\t{}{whys}\nfile\t{}\nsums{}\nlines{}\n",
        verdict(&checked),
        shown([wrong.head(), wrong.sources.clone()].concat()),
        verdict(&picked),
        verdict(&explained),
        verdict(&made),
        shown(sums.map(|sum| sum as usize)),
        shown(lines.iter().flat_map(|line| [line.len(), sum(line) as usize])),
    )
}

// ---- instructions

/// The records in the order in which they are first met.
#[derive(Default)]
struct Records {
    bytes: Vec<u8>,
    numbers: HashMap<Vec<u8>, usize>,
}

impl Records {
    fn number(&mut self, record: &[u8]) -> usize {
        let next = self.numbers.len();
        *self.numbers.entry(record.to_vec()).or_insert_with(|| {
            self.bytes.extend(record);
            self.bytes.push(b'\n');
            next
        })
    }
}

fn with_number(op: u8, number: usize) -> [u8; 3] {
    let [high, low] = u16::try_from(number).expect("a number of two bytes").to_be_bytes();
    [op, high, low]
}

/// The records, and what makes the cases out of them.
fn instructions(set: &[Case]) -> (Vec<u8>, Vec<u8>) {
    let mut records = Records::default();
    let mut made: Vec<[u8; 3]> = Vec::new();
    let (mut frozen, mut log): (&[u8], &[u8]) = (&[], &[]);
    for case in set {
        let mut line = |line: &[u8]| frozen_line(&mut records, line);
        made.extend(text(frozen, &case.frozen, [12, 3, 2], &mut line));
        let mut line = |line: &[u8]| log_line(&mut records, line);
        made.extend(text(log, &case.log, [13, 8, 7], &mut line));
        for number in &case.wanted {
            let (high, low) = ((number >> 16) as usize, (number & 0xffff) as usize);
            if high > 0 {
                made.extend([with_number(9, high), with_number(10, low)]);
            } else {
                made.push(with_number(9, low));
            }
        }
        if case.room != ROOM {
            made.push(with_number(11, case.room));
        }
        made.push([0, 0, 0]);
        (frozen, log) = (&case.frozen, &case.log);
    }
    (records.bytes, made.concat())
}

/// What makes a text, from nothing or out of the one before it, as it is
/// shorter. The operations are to begin as that one, to take bytes away and to
/// put one byte several times; some lines have operations of their own.
fn text(
    before: &[u8],
    own: &[u8],
    [begin, take_away, run]: [u8; 3],
    line: &mut dyn FnMut(&[u8]) -> Option<[u8; 3]>,
) -> Vec<[u8; 3]> {
    let mut pieces = |bytes: &[u8]| {
        let lines = bytes.split_inclusive(|byte| *byte == b'\n');
        lines
            .flat_map(|bytes| line(bytes).map_or_else(|| runs(run, bytes), |piece| vec![piece]))
            .collect::<Vec<_>>()
    };
    let lines = |text| <[u8]>::split_inclusive(text, |byte: &u8| *byte == b'\n');
    let shared: usize =
        lines(own).zip(lines(before)).take_while(|(one, other)| one == other).map(|(one, _)| one.len()).sum();
    let mut out_of_it = vec![[begin, 0, 0]];
    if shared < before.len() {
        out_of_it.push(with_number(take_away, before.len() - shared));
    }
    out_of_it.extend(pieces(&own[shared..]));
    let from_nothing = pieces(own);
    if from_nothing.len() <= out_of_it.len() {
        from_nothing
    } else {
        out_of_it
    }
}

fn frozen_line(records: &mut Records, line: &[u8]) -> Option<[u8; 3]> {
    let record = line.strip_suffix(b"\n").filter(|record| record.len() == LINE - 1)?;
    Some(with_number(1, records.number(record)))
}

fn log_line(records: &mut Records, line: &[u8]) -> Option<[u8; 3]> {
    match line.strip_suffix(b"\n")? {
        [b'C', b'\t', digits @ ..] => {
            let number: u16 = std::str::from_utf8(digits).ok()?.parse().ok()?;
            (number.to_string().as_bytes() == digits).then_some(with_number(6, usize::from(number)))
        }
        [letter @ (b'D' | b'A'), b'\t', record @ ..] if record.len() == LINE - 1 => {
            Some(with_number(if *letter == b'D' { 4 } else { 5 }, records.number(record)))
        }
        _ => None,
    }
}

/// Runs of one byte.
fn runs(op: u8, mut rest: &[u8]) -> Vec<[u8; 3]> {
    let mut made = Vec::new();
    while let [first, ..] = rest {
        let run = rest.iter().take(255).take_while(|byte| *byte == first).count();
        made.push([op, *first, run as u8]);
        rest = &rest[run..];
    }
    made
}

/// The cases that records and instructions make.
pub fn made_by(records: &[u8], instructions: &[u8]) -> Vec<Case> {
    let record = |number: usize| &records[number * LINE..(number + 1) * LINE];
    let nothing = Case { frozen: vec![], log: vec![], wanted: vec![], room: ROOM };
    let mut cases: Vec<Case> = Vec::new();
    let mut case = nothing.clone();
    for instruction in instructions.chunks(3) {
        let [op, x, y] = *instruction else { panic!("a piece of an instruction") };
        let number = usize::from(x) * 256 + usize::from(y);
        let run = vec![x; usize::from(y)];
        match op {
            0 => cases.push(std::mem::replace(&mut case, nothing.clone())),
            1 => case.frozen.extend(record(number)),
            2 => case.frozen.extend(run),
            3 => case.frozen.truncate(case.frozen.len() - number),
            4 => case.log.extend([b"D\t", record(number)].concat()),
            5 => case.log.extend([b"A\t", record(number)].concat()),
            6 => case.log.extend(format!("C\t{number}\n").into_bytes()),
            7 => case.log.extend(run),
            8 => case.log.truncate(case.log.len() - number),
            9 => case.wanted.push(number as u32),
            10 => {
                let last = case.wanted.last_mut().expect("a number is wanted");
                *last = *last * 65_536 + number as u32;
            }
            11 => case.room = number,
            12 => case.frozen = cases.last().map(|before| before.frozen.clone()).unwrap_or_default(),
            13 => case.log = cases.last().map(|before| before.log.clone()).unwrap_or_default(),
            _ => panic!("no such instruction: {instruction:?}"),
        }
    }
    cases
}
