//! The instructions make the set of picks, the requirement's own case, and what
//! holds of every accepted pick.

mod texts;

use std::collections::{BTreeSet, HashSet};

use reference::file::{check, LINE};
use reference::pick::{check_log, failing, new_file, pick, reasons, Cause, Reason, Why, IN_LOG, ROOM};
use reference::pick_vectors::{made_by, stored_files};
use reference::picks::{all, groups, Case};
use reference::{cases, Refusal};
use texts::{by_route, touched};

fn refusal<T>(number: u8, place: usize, column: usize) -> Result<T, Refusal> {
    Err(Refusal { number, place, column })
}

/// A leg of the missed approach with this one-letter transition, with its line feed.
fn leg(route: char, version: usize) -> String {
    format!("{}Z{route}    {}{version:05}2013\n", &cases::LEG[..19], &cases::LEG[25..123])
}

/// Replaces the leg of each route, which stands in this version, by the next.
fn renewed(routes: &[(char, usize)]) -> String {
    routes
        .iter()
        .map(|(route, version)| format!("D\t{}A\t{}", leg(*route, *version), leg(*route, version + 1)))
        .collect()
}

/// Routes P, Q, R of one record each; corrections 1 on P, 2 on Q, 3 on P and R,
/// 4 on Q, 5 on R.
fn requirement() -> (Vec<u8>, Vec<u8>) {
    let frozen: String = ['P', 'Q', 'R'].map(|route| leg(route, 0)).concat();
    let corrections =
        [&[('P', 0)][..], &[('Q', 0)], &[('P', 1), ('R', 0)], &[('Q', 1)], &[('R', 1)]].map(renewed);
    let log: String =
        (1..).zip(corrections).map(|(number, lines): (usize, _)| format!("C\t{number}\n{lines}")).collect();
    (frozen.into_bytes(), log.into_bytes())
}

#[test]
fn the_instructions_make_the_set() {
    let [(_, records), (_, instructions), _] = stored_files();
    assert!(records.len() <= 200_000, "{} bytes", records.len());
    assert!(instructions.len() <= 200_000, "{} bytes", instructions.len());
    assert!(made_by(&records, &instructions) == all());
}

#[test]
fn the_set_keeps_its_limits() {
    for (name, cases) in groups() {
        assert!(!cases.is_empty(), "no cases of {name}");
        for case in cases {
            assert!(case.frozen.len() <= 65_535 && case.log.len() <= 65_535, "{name}");
            assert!(case.wanted.len() <= 1000 && case.room <= 65_535, "{name}");
        }
    }
}

#[test]
fn the_set_meets_every_refusal_and_acceptance() {
    let mut numbers = HashSet::new();
    let mut routes = HashSet::new();
    for Case { frozen, log, wanted, room } in all() {
        match new_file(&frozen, &log, &wanted, room) {
            Ok(_) => drop(numbers.insert(0)),
            Err(refusal) => {
                numbers.insert(refusal.number);
                if refusal.number == 11 {
                    routes.insert(refusal.column);
                }
            }
        }
    }
    assert_eq!(numbers, (0..=14).collect());
    assert_eq!(routes, (3..=8).collect());
}

/// Whether the line of the log that begins here is the first of its correction.
fn is_first(log: &[u8], start: usize) -> bool {
    let before = log[..start].split_inclusive(|byte| *byte == b'\n').last();
    before.is_some_and(|line| line.starts_with(b"C"))
}

/// What a log that fails does so by.
fn failure_kind(log: &[u8], cause: &Cause) -> &'static str {
    match cause {
        Cause::Line(line) => {
            let before = log.split_inclusive(|byte| *byte == b'\n').take(line - 1);
            match is_first(log, before.map(<[u8]>::len).sum()) {
                true => "10 on the first line",
                false => "10 on a later line",
            }
        }
        Cause::Route { sources, refusal, .. } => match sources.get(refusal.place - 1) {
            Some(IN_LOG..) => "11 at a record of the log",
            Some(_) => "11 at a record of the file",
            None => {
                assert_eq!((refusal.number, refusal.place), (6, sources.len() + 1));
                "11 with 6 past the route's end"
            }
        },
    }
}

/// What corrections are taken by.
fn reason_kinds(log: &[u8], reasons: &[Reason]) -> BTreeSet<&'static str> {
    let corrections = touched(log);
    // On one of its routes the last one before it.
    let relies = |later: usize, number: usize| {
        corrections[later - 1].iter().any(|route| {
            (1..later).rev().find(|earlier| corrections[earlier - 1].contains(route)) == Some(number)
        })
    };
    let is_wanted =
        |number: usize| reasons.iter().any(|reason| reason.correction == number && reason.why == Why::Wanted);
    let mut kinds = BTreeSet::new();
    for Reason { correction: number, why } in reasons {
        let by = reasons.iter().filter(|other| relies(other.correction, *number)).count();
        let Why::For { correction, source } = why else {
            kinds.insert(if by == 0 { "wanted" } else { "wanted and relied on" });
            continue;
        };
        kinds.insert(if by == 1 { "for the only one" } else { "for the smallest of several" });
        kinds.insert(if is_wanted(*correction) { "for a wanted one" } else { "for one that nobody wants" });
        let first = is_first(log, source - IN_LOG - 2);
        kinds.insert(if first { "for its first line" } else { "for a later line" });
    }
    kinds
}

#[test]
fn the_set_meets_every_kind_of_failure_and_of_reason() {
    let mut met = BTreeSet::new();
    for Case { frozen, log, wanted, .. } in all() {
        if let Some(failure) = failing(&frozen, &log) {
            let hidden = matches!(pick(&frozen, &log, &wanted), Err(Refusal { number: 12, .. }));
            met.insert(if hidden { "behind a 12" } else { failure_kind(&log, &failure.cause) });
        }
        if let Ok(reasons) = reasons(&frozen, &log, &wanted) {
            met.extend(reason_kinds(&log, &reasons));
        }
    }
    let kinds = [
        "10 on the first line",
        "10 on a later line",
        "11 at a record of the log",
        "11 at a record of the file",
        "11 with 6 past the route's end",
        "behind a 12",
        "wanted",
        "wanted and relied on",
        "for the only one",
        "for the smallest of several",
        "for a wanted one",
        "for one that nobody wants",
        "for its first line",
        "for a later line",
    ];
    assert_eq!(met, BTreeSet::from(kinds));
}

#[test]
fn the_requirement() {
    let (frozen, log) = requirement();
    assert_eq!(check_log(&frozen, &log), Ok(()));
    let taken = |wanted: &[u32]| pick(&frozen, &log, wanted).map(|picked| picked.taken);
    assert_eq!(taken(&[5]), Ok(vec![1, 3, 5]));
    assert_eq!(taken(&[4, 4]), Ok(vec![2, 4]));
    assert_eq!(taken(&[]), Ok(vec![]));
    assert_eq!(taken(&[6]), refusal(12, 1, 0));
    let records = [('P', 2), ('Q', 0), ('R', 2)].map(|(route, version)| leg(route, version));
    assert_eq!(new_file(&frozen, &log, &[5], ROOM), Ok(records.concat().into_bytes()));
    assert_eq!(new_file(&frozen, &log, &[5], ROOM - 1), refusal(14, 0, 0));
    let sources = pick(&frozen, &log, &[5]).expect("wanted 5 is a pick").sources;
    // The A lines of the third and the fifth correction, each behind a D line.
    let behind = |lines: usize, headings: usize| 1_000_000 + 135 * lines + 4 * headings + 2;
    assert_eq!(sources, [behind(5, 3), 133, behind(11, 5)]);
}

/// The log with its first corrections alone.
fn cut(log: &[u8], corrections: usize) -> &[u8] {
    let heading = format!("C\t{}\n", corrections + 1);
    let at = log.windows(heading.len()).position(|bytes| bytes == heading.as_bytes());
    &log[..at.unwrap_or(log.len())]
}

/// The file after all of these corrections.
fn after_all(frozen: &[u8], log: &[u8]) -> Vec<u8> {
    let all: Vec<u32> = (1..=touched(log).len() as u32).collect();
    new_file(frozen, log, &all, ROOM).expect("what begins an accepted log is accepted")
}

#[test]
fn every_route_is_as_the_log_had_it_after_its_last_correction_taken() {
    let mut accepted = 0;
    for Case { frozen, log, wanted, .. } in all() {
        let Ok(picked) = pick(&frozen, &log, &wanted) else { continue };
        let made = new_file(&frozen, &log, &wanted, ROOM).expect("an accepted pick has a file");
        accepted += 1;
        assert_eq!(check(&made), Ok(()));
        assert_eq!(check_log(&frozen, &log), Ok(()));
        let corrections = touched(&log);
        // All that are wanted and no more than they need: each one taken is
        // wanted, or a later one that is taken touches one of its routes.
        assert!(wanted.iter().all(|number| picked.taken.contains(&(*number as usize))));
        for number in &picked.taken {
            let mut later = picked.taken.iter().filter(|other| *other > number);
            let shares = |other: &usize| !corrections[other - 1].is_disjoint(&corrections[number - 1]);
            assert!(wanted.contains(&(*number as u32)) || later.any(|other| shares(other)));
        }
        if log.len() > 10_000 {
            continue;
        }
        let routes = by_route(&made);
        let last_taken = |route: &[u8]| {
            picked.taken.iter().rev().find(|number| corrections[**number - 1].contains(route)).copied()
        };
        let all_routes: HashSet<&[u8]> =
            corrections.iter().flatten().copied().chain(by_route(&frozen).into_keys()).collect();
        for route in all_routes {
            let then = after_all(&frozen, cut(&log, last_taken(route).unwrap_or(0)));
            assert_eq!(routes.get(route), by_route(&then).get(route));
        }
    }
    assert!(accepted > 150, "{accepted} picks are accepted");
}

#[test]
fn each_source_has_its_record() {
    for Case { frozen, log, wanted, .. } in all() {
        let Ok(picked) = pick(&frozen, &log, &wanted) else { continue };
        for (source, record) in picked.sources.iter().zip(&picked.records) {
            let lies = match source.checked_sub(1_000_000) {
                Some(at) => &log[at..at + LINE - 1],
                None => &frozen[*source..source + LINE - 1],
            };
            assert_eq!(&lies, record);
        }
    }
}
