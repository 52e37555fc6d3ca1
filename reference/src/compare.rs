//! Random folders in batches: what this program answers to them, counted, and
//! held to what another one answers to the same file of folders.

use std::collections::BTreeMap;
use std::path::Path;
use std::process::Command;
use std::{env, fs, io, process};

use crate::answers::Inputs;
use crate::folders::{answer, packed};
use crate::random_folders::random;

/// How many folders one run of the other program is given.
const BATCH: u64 = 5_000;
/// How many differing cases are named.
const NAMED: usize = 10;

/// Makes so many cases from the seed, prints what they come to, and answers how
/// many differ. Without a program to run, the cases are only made and counted.
pub fn run(seed: u64, cases: u64, program: &[&str]) -> io::Result<usize> {
    let place = env::temp_dir().join(format!("lapurendi-compare-{}", process::id()));
    fs::create_dir_all(&place)?;
    let compared = all_batches(seed, cases, program, &place);
    fs::remove_dir_all(&place)?;
    let Compared { tally, reasons, differing } = compared?;
    println!("cases\t{cases}");
    for (kind, count) in tally {
        match kind {
            0 => println!("accepted picks\t{count}"),
            number => println!("refused by {number}\t{count}"),
        }
    }
    println!("corrections taken for another\t{reasons}");
    if program.is_empty() {
        println!("not compared");
        return Ok(0);
    }
    println!("differences\t{}", differing.len());
    for number in differing.iter().take(NAMED) {
        println!("differs\tcase {number} of seed {seed}");
    }
    Ok(differing.len())
}

/// How many picks are refused by each number, 0 for those that stand; how many
/// corrections are taken that nobody wants; and the numbers of the cases that
/// differ.
#[derive(Default)]
struct Compared {
    tally: BTreeMap<usize, usize>,
    reasons: usize,
    differing: Vec<u64>,
}

fn all_batches(seed: u64, cases: u64, program: &[&str], place: &Path) -> io::Result<Compared> {
    let Compared { mut tally, mut reasons, mut differing } = Compared::default();
    let mut first = 1;
    while first <= cases {
        let last = cases.min(first + BATCH - 1);
        let folders: Vec<Inputs> = (first..=last).map(|number| random(seed, number)).collect();
        fs::write(place.join("folders.bin"), folders.iter().flat_map(packed).collect::<Vec<u8>>())?;
        let expected: Vec<Vec<u8>> = (1..).zip(&folders).map(|(number, one)| answer(number, one)).collect();
        for answer in &expected {
            let number = refusal_number(answer);
            *tally.entry(number).or_insert(0) += 1;
            if number == 0 {
                reasons += reliances(answer);
            }
        }
        if let [start, words @ ..] = program {
            let done = Command::new(start).args(words).current_dir(place).output()?;
            if !done.status.success() {
                return Err(io::Error::other(format!("{start} ended with {}", done.status)));
            }
            differing.extend(differences(&expected, &done.stdout).iter().map(|at| first + *at as u64));
        }
        first = last + 1;
    }
    Ok(Compared { tally, reasons, differing })
}

/// By which number the pick is refused, 0 where it stands: what it says is the
/// second line of an answer.
fn refusal_number(answer: &[u8]) -> usize {
    // What `why` says of a refused record, at its end, may be no text.
    let pick = answer.split(|byte| *byte == b'\n').nth(1).expect("an answer has a pick");
    let pick = std::str::from_utf8(pick).expect("a pick is text");
    match pick.strip_prefix("no\t").and_then(|refusal| refusal.split('\t').next()) {
        Some(number) => number.parse().expect("a refusal has a number"),
        None => 0,
    }
}

/// How many lines of an answer that stands say that a correction is taken for
/// another.
fn reliances(answer: &[u8]) -> usize {
    let text = std::str::from_utf8(answer).expect("an answer that stands is text");
    text.lines().filter(|line| line.starts_with("take\t") && line.contains("\tfor\t")).count()
}

/// Which of the expected answers, counted from 0, were not printed as they are.
/// Behind one that differs, the next is looked for by its first line.
pub fn differences(expected: &[Vec<u8>], mut printed: &[u8]) -> Vec<usize> {
    let mut differing = Vec::new();
    for (at, answer) in expected.iter().enumerate() {
        let next = format!("folder\t{}\n", at + 2).into_bytes();
        let rest = printed.strip_prefix(&answer[..]);
        // What is printed behind the last answer belongs to it.
        match rest.filter(|rest| rest.starts_with(&next) || rest.is_empty() && at + 1 == expected.len()) {
            Some(rest) => printed = rest,
            None => {
                differing.push(at);
                let found = printed.windows(next.len()).position(|bytes| bytes == next);
                printed = &printed[found.unwrap_or(printed.len())..];
            }
        }
    }
    differing
}
