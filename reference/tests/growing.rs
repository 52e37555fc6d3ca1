//! What adding to a wish does, in random folders whose log is accepted: two lists
//! joined, a list with numbers added, the routes that stay, and the records
//! counted. Every list within the log has a pick.

mod texts;

use std::collections::{BTreeSet, HashMap, HashSet};

use reference::answers::Inputs;
use reference::file::LINE;
use reference::pick::{check_log, new_file, pick, ROOM};
use reference::random_folders::random;
use reference::wanted::numbers;
use texts::{by_route, touched};

const SEED: u64 = 14;
const FOLDERS: u64 = 1_000;

/// A frozen file and a log that are accepted, and two lists within the log.
struct Wishes {
    frozen: Vec<u8>,
    log: Vec<u8>,
    first: Vec<u32>,
    second: Vec<u32>,
}

impl Wishes {
    /// The lists are that of the folder and that of the next one, with every
    /// number brought within the log.
    fn of(number: u64) -> Option<Wishes> {
        let Inputs { frozen, log, want } = random(SEED, number);
        check_log(&frozen, &log).ok()?;
        let corrections = touched(&log).len() as u32;
        let within = |want: &[u8]| match corrections {
            0 => Vec::new(),
            _ => numbers(want).iter().map(|number| number % corrections + 1).collect(),
        };
        let (first, second) = (within(&want), within(&random(SEED, number + 1).want));
        Some(Wishes { frozen, log, first, second })
    }

    /// The first list with the numbers of the second, in another order and with
    /// repeats.
    fn grown(&self) -> Vec<u32> {
        let mut grown = [&self.second[..], &self.first, &self.first].concat();
        grown.reverse();
        grown
    }

    fn taken(&self, wanted: &[u32]) -> BTreeSet<usize> {
        let picked = pick(&self.frozen, &self.log, wanted).expect("a list within the log has a pick");
        picked.taken.into_iter().collect()
    }

    fn made(&self, wanted: &[u32]) -> Vec<u8> {
        new_file(&self.frozen, &self.log, wanted, ROOM).expect("a list within the log has a new file")
    }
}

fn all() -> impl Iterator<Item = Wishes> {
    (1..=FOLDERS).filter_map(Wishes::of)
}

#[test]
fn two_lists_joined_take_what_each_takes() {
    let mut apart = 0;
    for wishes in all() {
        let (first, second) = (wishes.taken(&wishes.first), wishes.taken(&wishes.second));
        let joined = [&wishes.first[..], &wishes.second].concat();
        assert_eq!(wishes.taken(&joined), &first | &second);
        apart += usize::from(!first.is_subset(&second) && !second.is_subset(&first));
    }
    assert!(apart > 100, "{apart} times each list takes what the other does not");
}

#[test]
fn a_list_with_numbers_added_loses_nothing() {
    let mut more = 0;
    for wishes in all() {
        let (before, after) = (wishes.taken(&wishes.first), wishes.taken(&wishes.grown()));
        assert!(before.is_subset(&after), "{before:?} and {after:?}");
        more += usize::from(!before.is_empty() && before != after);
    }
    assert!(more > 150, "{more} lists take more");
}

#[test]
fn a_route_that_no_extra_correction_touches_stays() {
    let (mut stay, mut move_on) = (0, 0);
    for wishes in all() {
        let (before, after) = (wishes.taken(&wishes.first), wishes.taken(&wishes.grown()));
        let corrections = touched(&wishes.log);
        let extra: HashSet<&[u8]> =
            (&after - &before).iter().flat_map(|number| corrections[number - 1].iter().copied()).collect();
        let (first_file, grown_file) = (wishes.made(&wishes.first), wishes.made(&wishes.grown()));
        let (frozen, first, grown) = (by_route(&wishes.frozen), by_route(&first_file), by_route(&grown_file));
        let routes: HashSet<&[u8]> =
            corrections.iter().flatten().copied().chain(frozen.keys().copied()).collect();
        for route in routes {
            let (was, is) = (first.get(route), grown.get(route));
            if !extra.contains(route) {
                assert_eq!(was, is);
                stay += usize::from(!extra.is_empty() && was != frozen.get(route));
            }
            move_on += usize::from(was != is);
        }
    }
    assert!(stay > 50, "{stay} routes stay as the first list made them while others are touched");
    assert!(move_on > 100, "{move_on} routes are not as the first list made them");
}

/// How often each record is there.
fn counted<'a>(records: impl Iterator<Item = &'a [u8]>) -> HashMap<&'a [u8], usize> {
    let mut counts = HashMap::new();
    records.for_each(|record| *counts.entry(record).or_insert(0) += 1);
    counts
}

/// The records on the lines with this letter of the corrections taken, by the
/// text of the log.
fn lines<'a>(log: &'a [u8], taken: &BTreeSet<usize>, letter: u8) -> Vec<&'a [u8]> {
    let mut number = 0;
    let mut records = Vec::new();
    for line in log.split_inclusive(|byte| *byte == b'\n') {
        number += usize::from(line[0] == b'C');
        if line[0] == letter && taken.contains(&number) {
            records.push(&line[2..2 + LINE]);
        }
    }
    records
}

#[test]
fn records_are_the_frozen_ones_with_the_a_lines_and_without_the_d_lines() {
    let (mut fewer, mut out_and_in) = (0, 0);
    for wishes in all() {
        for wanted in [&wishes.first, &wishes.grown()] {
            let taken = wishes.taken(wanted);
            let made = wishes.made(wanted);
            let (outs, ins) = (lines(&wishes.log, &taken, b'D'), lines(&wishes.log, &taken, b'A'));
            let (frozen, new) = (wishes.frozen.chunks(LINE), made.chunks(LINE));
            assert_eq!(new.len() + outs.len(), frozen.len() + ins.len());
            fewer += usize::from(new.len() < frozen.len());
            let (new, frozen) = (counted(new), counted(frozen));
            let (outs, ins) = (counted(outs.into_iter()), counted(ins.into_iter()));
            let often =
                |counts: &HashMap<&[u8], usize>, record: &[u8]| counts.get(record).copied().unwrap_or(0);
            for record in [&new, &outs, &frozen, &ins].into_iter().flat_map(HashMap::keys) {
                let (after, before) = (often(&new, record), often(&frozen, record));
                assert_eq!(after + often(&outs, record), before + often(&ins, record));
                out_and_in += usize::from(often(&outs, record) > 0 && often(&ins, record) > 0);
            }
        }
    }
    assert!(fewer > 50, "{fewer} new files have fewer records than the frozen one");
    assert!(out_and_in > 100, "{out_and_in} records are both taken out and put in");
}
