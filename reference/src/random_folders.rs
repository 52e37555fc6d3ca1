//! Random folders: small frozen files of several routes, logs whose corrections
//! build on each other, wanted lists of all kinds, and damage to each of them.

use crate::answers::Inputs;
use crate::cases::{Dice, CYCLES};
use crate::file::LINE;
use crate::files;
use crate::files::changed;
use crate::judge::is_continuation;
use crate::pick::ROOM;
use crate::picks::{file, full_file, headings, leg, log, put, Case, Record};
use crate::random_picks::{any_routes, chosen, random_case, spoiled};

/// The folder with this number, counted from 1, of those from this seed. Each is
/// made by itself, so that one can be made again without the others.
pub fn random(seed: u64, number: u64) -> Inputs {
    let mut dice = Dice(start(seed, number));
    if dice.below(1000) == 0 {
        return at_a_limit(&mut dice);
    }
    let kind = dice.below(10);
    let routes = any_routes(&mut dice);
    let Case { mut frozen, log, wanted, .. } = random_case(&mut dice, &routes, matches!(kind, 0 | 1));
    match kind {
        2 => damage_file(&mut dice, &mut frozen),
        4 | 5 => spoil_file(&mut dice, &mut frozen),
        _ => {}
    }
    let mut want = list(&mut dice, &wanted);
    if kind == 3 {
        damage_list(&mut dice, &mut want);
    }
    Inputs::of([&frozen, &log, &want])
}

/// Where the dice of a folder begin: never at 0, from which they don't move, and
/// far apart for numbers that are near each other (the last steps of splitmix64).
fn start(seed: u64, number: u64) -> u64 {
    let mut mixed = seed.wrapping_mul(0x9e37_79b9_7f4a_7c15).wrapping_add(number);
    for factor in [0xbf58_476d_1ce4_e5b9, 0x94d0_49bb_1331_11eb] {
        mixed = (mixed ^ (mixed >> 30)).wrapping_mul(factor);
    }
    (mixed ^ (mixed >> 31)).max(1)
}

/// These numbers as a list, with zeros in front of some.
fn list(dice: &mut Dice, wanted: &[u32]) -> Vec<u8> {
    let mut lines = Vec::new();
    for number in wanted {
        lines.extend(match dice.below(8) {
            0 => format!("{number:02}\n").into_bytes(),
            1 => format!("{number:03}\n").into_bytes(),
            _ => format!("{number}\n").into_bytes(),
        });
    }
    lines
}

/// A list with a line that is none, a line end that is none, or too many lines.
fn damage_list(dice: &mut Dice, want: &mut Vec<u8>) {
    const LINES: [&str; 12] =
        ["\n", "0\n", "000\n", "0001\n", "1 \n", " 1\n", "+1\n", "1\r\n", "1,2\n", "999\n", "x\n", "\0\n"];
    let starts: Vec<usize> = (0..=want.len()).filter(|at| *at == 0 || want[at - 1] == b'\n').collect();
    match dice.below(6) {
        0 => drop(want.pop()),
        1 => *want = b"1\n".repeat(chosen(dice, &[199, 200, 201, 400])),
        2 if !want.is_empty() => {
            let at = dice.below(want.len());
            want[at] = dice.below(256) as u8;
        }
        _ => {
            let (at, line) = (chosen(dice, &starts), chosen(dice, &LINES));
            want.splice(at..at, line.bytes());
        }
    }
}

/// A file with a field blanked or changed, or with records lost, twice there,
/// out of order or cut.
fn damage_file(dice: &mut Dice, frozen: &mut Vec<u8>) {
    // First columns and widths of fields that are companions, needed or judged beside other records.
    const FIELDS: [(usize, usize); 14] = [
        (21, 5),
        (27, 3),
        (30, 5),
        (35, 2),
        (37, 1),
        (39, 1),
        (48, 2),
        (51, 4),
        (63, 4),
        (71, 4),
        (79, 1),
        (85, 5),
        (107, 5),
        (133, 1),
    ];
    let records = frozen.len() / LINE;
    if records == 0 {
        return frozen.extend(chosen(dice, &[&b"\n"[..], b"S", b"\0", b"SEURP LPRD"]));
    }
    let (one, other) = (dice.below(records) * LINE, dice.below(records) * LINE);
    let of_other = frozen[other..other + LINE].to_vec();
    let (first, width) = chosen(dice, &FIELDS);
    let (from, to) = (one + first - 1, one + first - 1 + width);
    match dice.below(9) {
        0 | 1 => frozen[from..to].fill(b' '),
        2 => {
            let terminator = chosen(dice, &[b"IF", b"TF", b"RF", b"CA", b"HM", b"PI"]);
            frozen[one + 47..one + 49].copy_from_slice(terminator);
        }
        3 => {
            let content = of_other[first - 1..first - 1 + width].to_vec();
            frozen.splice(from..to, content);
        }
        4 => drop(frozen.drain(one..one + LINE)),
        5 => drop(frozen.splice(one..one, of_other)),
        6 => {
            let of_one = frozen[one..one + LINE].to_vec();
            frozen[other..other + LINE].copy_from_slice(&of_one);
            frozen[one..one + LINE].copy_from_slice(&of_other);
        }
        7 => frozen[one + 128..one + 132].copy_from_slice(chosen(dice, &CYCLES).as_bytes()),
        _ => frozen.truncate(dice.below(frozen.len())),
    }
}

/// A file in which one route begins, goes on or ends as it may not; or has other
/// records, or pieces of them, behind its last one; or both. Every other one has
/// some other damage besides, often near by.
fn spoil_file(dice: &mut Dice, frozen: &mut Vec<u8>) {
    let mut records: Vec<Record> = frozen.chunks(LINE).map(|line| line[..LINE - 1].to_vec()).collect();
    if records.is_empty() {
        return;
    }
    let of_route = chosen(dice, &records)[..25].to_vec();
    let in_route = |record: &Record| record[..25] == of_route;
    let from = records.iter().position(in_route).expect("the route of one of the records");
    let to = from + records[from..].iter().take_while(|record| in_route(record)).count();
    let way = dice.below(3);
    if way < 2 {
        if let Some((at, record)) = spoiled(dice, &records[from..to]) {
            records[from + at] = record;
        }
    }
    *frozen = file(&records);
    if way > 0 {
        let last = records[from..to].iter().rev().find(|record| !is_continuation(record));
        put_behind(dice, frozen, to, last.expect("a route has a leg"));
    }
    if dice.below(2) == 0 {
        damage_file(dice, frozen);
    }
}

/// Puts behind so many records what a route with this last leg does not go on
/// with, or cuts the file there.
fn put_behind(dice: &mut Dice, frozen: &mut Vec<u8>, records: usize, last: &Record) {
    let line = |record: &[u8], feed: &str| [record, feed.as_bytes()].concat();
    let note = |dice: &mut Dice| {
        let own = files::continuation(1, chosen(dice, &['2', '3', '4', '9', 'Z']), &[]);
        [&last[..38], &own[38..LINE - 1]].concat()
    };
    let leg = changed(last, &[(27, "999"), (39, chosen(dice, &["0", "1", "x"]))]);
    let feed = chosen(dice, &["\n", " "]);
    let lines = match dice.below(7) {
        0 => line(&note(dice), feed),
        1 => [line(&note(dice), feed), line(&note(dice), "\n")].concat(),
        2 => line(&changed(&note(dice), &[(25, "Q")]), feed),
        3 => line(&leg, feed),
        4 => [line(&note(dice), feed), line(&leg, feed)].concat(),
        5 => [line(&changed(&note(dice), &[(25, "Q")]), feed), line(&leg, feed)].concat(),
        _ => return frozen.truncate(records * LINE + dice.below(LINE)),
    };
    frozen.splice(records * LINE..records * LINE, lines);
}

/// A folder at or past one of the limits of size. These are large, and rare.
fn at_a_limit(dice: &mut Dice) -> Inputs {
    let full = full_file();
    let records = chosen(dice, &[479, 480]);
    let puts: Vec<_> = (1..=1 + dice.below(2)).map(|sequence| put(&leg("Z", sequence, 0))).collect();
    match dice.below(5) {
        0 => Inputs::of([&file(&full[..records]), &log(&[puts]), b"1\n"]),
        1 => Inputs::of([&file(&full[..records]), b"", b""]),
        2 => Inputs::of([&vec![b'x'; ROOM + dice.below(2)], b"", b""]),
        3 => Inputs::of([b"", &vec![b'x'; 60_000 + dice.below(2)], b""]),
        _ => Inputs::of([b"", &headings(1..=chosen(dice, &[200, 201])), b"200\n"]),
    }
}
