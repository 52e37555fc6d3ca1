//! Random picks: small files of routes of all nine kinds, logs whose corrections
//! build on each other, wanted numbers, and damage to each of them.

use std::collections::BTreeMap;

use crate::cases::{Dice, CYCLES};
use crate::file::{check, kind, terminator};
use crate::files;
use crate::files::{changed, Change};
use crate::judge::is_continuation;
use crate::legs::{may_begin, may_end, may_follow, terminators, ROUTE_KINDS};
use crate::pick::{place, ROOM};
use crate::picks::{case, file, log, out, put, replaced, without_line_feed, Case, Correction, Line, Record};

pub(crate) fn chosen<T: Clone>(dice: &mut Dice, choice: &[T]) -> T {
    choice[dice.below(choice.len())].clone()
}

// ---- routes

/// What all records of a route have in common.
#[derive(Clone, Copy)]
pub(crate) struct Route {
    row: usize,
    route_type: &'static str,
    transition: &'static str,
}

/// Four routes of any kind.
pub(crate) fn any_routes(dice: &mut Dice) -> Vec<Route> {
    let any = |_| {
        let row = dice.below(ROUTE_KINDS.len());
        let types: Vec<&str> = ROUTE_KINDS[row].route_types.split(' ').collect();
        let transition = chosen(dice, &["A    ", "B    ", "BA   "]);
        Route { row, route_type: chosen(dice, &types), transition }
    };
    (0..4).map(any).collect()
}

/// Three routes of any kind, each kind with one route type, so that few records
/// are stored.
pub(crate) fn few_routes(dice: &mut Dice) -> Vec<Route> {
    let first_of =
        |row: usize| Route { row, route_type: &ROUTE_KINDS[row].route_types[..1], transition: "A    " };
    (0..3).map(|_| first_of(dice.below(ROUTE_KINDS.len()))).collect()
}

impl Route {
    /// A leg or continuation of another route as one of this.
    fn record(&self, record: Vec<u8>, version: usize) -> Record {
        let changes: [Change; 4] = [
            (13, ROUTE_KINDS[self.row].subsection),
            (20, self.route_type),
            (21, self.transition),
            (124, &format!("{version:05}")),
        ];
        changed(&without_line_feed(record), &changes)
    }

    /// A leg, one in five of them with continuations.
    fn leg(&self, dice: &mut Dice, sequence: usize, terminator: &str) -> Vec<Record> {
        let version = dice.below(2);
        let last = if dice.below(5) == 0 { chosen(dice, &['2', '3']) } else { '1' };
        let number = if last == '1' { "0" } else { "1" };
        let leg = files::leg(sequence, &[(39, number), (48, terminator)]);
        let notes = ('2'..=last).map(|number| files::continuation(sequence, number, &[]));
        [leg].into_iter().chain(notes).map(|record| self.record(record, version)).collect()
    }

    /// A whole route that is accepted.
    fn legs(&self, dice: &mut Dice) -> Vec<Record> {
        let wanted = 1 + dice.below(4);
        let mut names: Vec<&str> = Vec::new();
        loop {
            let stand: Vec<&str> =
                terminators().filter(|name| stands(self.row, names.last().copied(), name)).collect();
            let ends: Vec<&str> = stand.iter().copied().filter(|name| may_end(self.row, name)).collect();
            // Of some kinds no route has one leg alone.
            let last = names.len() + 1 >= wanted && !ends.is_empty();
            names.push(chosen(dice, if last { &ends } else { &stand }));
            if last {
                break;
            }
        }
        (1..).zip(names).flat_map(|(at, name)| self.leg(dice, 10 * at, name)).collect()
    }
}

/// Whether a leg may stand behind another, or begin its route.
fn stands(row: usize, before: Option<&str>, leg: &str) -> bool {
    before.map_or(may_begin(row, leg), |before| may_follow(before, leg))
}

/// What makes a good route a bad one in one way: a first leg that may not begin
/// it, a leg that may not follow the one before it, or a last leg that may follow
/// and not end it. That is a record's place in the route, and what it becomes.
pub(crate) fn spoiled(dice: &mut Dice, route: &[Record]) -> Option<(usize, Record)> {
    let legs: Vec<usize> = (0..route.len()).filter(|at| !is_continuation(&route[*at])).collect();
    let way = dice.below(3);
    let at = match way {
        0 => 0,
        1 if legs.len() > 1 => 1 + dice.below(legs.len() - 1),
        1 => return None,
        _ => legs.len().checked_sub(1)?,
    };
    let row = kind(&route[*legs.get(at)?]);
    let before = at.checked_sub(1).map(|before| terminator(&route[legs[before]]));
    let wrong = |name: &&str| match way {
        0 | 1 => !stands(row, before, name),
        _ => stands(row, before, name) && !may_end(row, name),
    };
    let names: Vec<&str> = terminators().filter(wrong).collect();
    let name = names.get(dice.below(names.len().max(1)))?;
    Some((legs[at], changed(&route[legs[at]], &[(48, name)])))
}

// ---- corrections

/// A place's record, by places.
type Standing = BTreeMap<Vec<u8>, Record>;

fn route_of<'a>(standing: &'a Standing, record: &[u8]) -> Vec<&'a Record> {
    standing.values().filter(|other| other[..25] == record[..25]).collect()
}

/// Whether each of these records' routes is accepted.
fn stand(standing: &Standing, correction: &Correction) -> bool {
    correction.iter().all(|(Line::Out(record) | Line::In(record))| {
        let route: Vec<Record> = route_of(standing, record).into_iter().cloned().collect();
        check(&file(&route)).is_ok()
    })
}

/// A leg at a free place of a route that stands, mostly one that suits its place.
fn fresh_leg(dice: &mut Dice, route: Route, standing: &[&Record]) -> Vec<Record> {
    let sequence = 5 * (1 + dice.below(9));
    let number = format!("{sequence:03}").into_bytes();
    let legs = || standing.iter().filter(|record| !is_continuation(record));
    if legs().any(|leg| leg[26..29] == number[..]) {
        return Vec::new();
    }
    let before = legs().rev().find(|leg| leg[26..29] < number[..]).map(|leg| terminator(leg));
    let after = legs().find(|leg| leg[26..29] > number[..]).map(|leg| terminator(leg));
    let name = suited(dice, route.row, before, after);
    route.leg(dice, sequence, name)
}

/// A terminator that suits its place in a route; one time in eight any.
fn suited(dice: &mut Dice, row: usize, before: Option<&str>, after: Option<&str>) -> &'static str {
    let suits = |name: &&str| {
        stands(row, before, name) && after.map_or(may_end(row, name), |after| may_follow(name, after))
    };
    let all: Vec<&str> = terminators().collect();
    let suiting: Vec<&str> = terminators().filter(suits).collect();
    match dice.below(8) {
        0 => chosen(dice, &all),
        _ => chosen(dice, if suiting.is_empty() { &all } else { &suiting }),
    }
}

/// A leg of a route that stands, which becomes another one.
fn other_leg(dice: &mut Dice, route: &[&Record]) -> Vec<Line> {
    let legs: Vec<&Record> = route.iter().copied().filter(|record| !is_continuation(record)).collect();
    if legs.is_empty() {
        return Vec::new();
    }
    let at = dice.below(legs.len());
    let before = at.checked_sub(1).map(|before| terminator(legs[before]));
    let after = legs.get(at + 1).map(|after| terminator(after));
    let name = suited(dice, kind(legs[at]), before, after);
    replaced(legs[at], &changed(legs[at], &[(48, name)]))
}

/// A record with another file record number, one in four with another cycle too,
/// be it good or bad.
fn newer(dice: &mut Dice, record: &Record) -> Record {
    let numbered = changed(record, &[(124, chosen(dice, &["00000", "00001", "00002"]))]);
    match dice.below(4) {
        0 => changed(&numbered, &[(129, chosen(dice, &CYCLES))]),
        _ => numbered,
    }
}

/// Lines that apply to what stands.
fn step(dice: &mut Dice, routes: &[Route], standing: &Standing) -> Vec<Line> {
    let records: Vec<Record> = standing.values().cloned().collect();
    let route = chosen(dice, routes);
    let of_route = route_of(standing, &route.record(files::leg(1, &[]), 0));
    let new = match of_route.is_empty() {
        true => route.legs(dice),
        false => fresh_leg(dice, route, &of_route),
    };
    match (dice.below(12), records.is_empty()) {
        (0..=3, _) | (_, true) => new.iter().map(put).collect(),
        (4, _) => new.iter().map(put).chain(new.iter().map(out)).collect(),
        (5, _) => vec![out(&chosen(dice, &records))],
        (6, _) => {
            let record = chosen(dice, &records);
            replaced(&record, &record)
        }
        (7, _) => {
            let record = chosen(dice, &records);
            route_of(standing, &record).into_iter().map(out).collect()
        }
        (8, _) => {
            let record = chosen(dice, &records);
            let leg = |other: &&&Record| other[26..29] == record[26..29];
            route_of(standing, &record).iter().filter(leg).map(|record| out(record)).collect()
        }
        (9, _) => {
            let record = chosen(dice, &records);
            other_leg(dice, &route_of(standing, &record))
        }
        _ => {
            let record = chosen(dice, &records);
            replaced(&record, &newer(dice, &record))
        }
    }
}

fn carry(standing: &mut Standing, line: &Line) {
    match line {
        Line::Out(record) => drop(standing.remove(&place(record))),
        Line::In(record) => drop(standing.insert(place(record), record.clone())),
    }
}

/// A correction of up to three steps, and what stands after it.
fn random_correction(dice: &mut Dice, routes: &[Route], standing: &Standing) -> (Correction, Standing) {
    let mut after = standing.clone();
    let mut correction = Vec::new();
    for _ in 0..dice.below(4) {
        for line in step(dice, routes, &after) {
            carry(&mut after, &line);
            correction.push(line);
        }
    }
    (correction, after)
}

/// A correction that leaves a route with a leg that may not begin it, follow the
/// one before or end it.
fn spoiling(dice: &mut Dice, standing: &Standing) -> Correction {
    let records: Vec<Record> = standing.values().cloned().collect();
    if records.is_empty() {
        return Vec::new();
    }
    let route: Vec<Record> = route_of(standing, &chosen(dice, &records)).into_iter().cloned().collect();
    spoiled(dice, &route).map_or(Vec::new(), |(at, record)| replaced(&route[at], &record))
}

/// A pick out of a file of these routes.
pub(crate) fn random_case(dice: &mut Dice, routes: &[Route], damaged: bool) -> Case {
    let mut standing = Standing::new();
    let mut corrections: Vec<Correction> = Vec::new();
    let mut frozen = Vec::new();
    // The first few steps make the frozen file, the others the log.
    let (opening_steps, all_steps) = (dice.below(6), 8 + dice.below(8));
    for at in 0..all_steps {
        if at <= opening_steps {
            frozen = standing.values().cloned().collect();
        }
        let (correction, after) = random_correction(dice, routes, &standing);
        let log_has_begun = at >= opening_steps;
        // One that leaves a route refused is dropped, but for a few in the log.
        if stand(&after, &correction) || log_has_begun && dice.below(40) == 0 {
            standing = after;
            if log_has_begun {
                corrections.push(correction);
            }
        }
    }
    if dice.below(20) == 0 {
        corrections.push(spoiling(dice, &standing));
    }
    let mut case = case(&file(&frozen), &log(&corrections), &[]);
    for _ in 0..dice.below(4) {
        case.wanted.push(1 + dice.below(corrections.len().max(1)) as u32);
    }
    if damaged {
        damage(dice, &mut case, corrections);
    }
    case
}

/// Damages the log, the frozen file, the wanted numbers or the buffer.
fn damage(dice: &mut Dice, case: &mut Case, mut corrections: Vec<Correction>) {
    const LIKELY: &[u8] = b"0123456789ABCDFT \t\n";
    let lines: Vec<usize> = (0..corrections.len()).filter(|at| !corrections[*at].is_empty()).collect();
    match dice.below(8) {
        0 if !case.frozen.is_empty() => {
            let at = dice.below(case.frozen.len());
            case.frozen[at] = chosen(dice, LIKELY);
        }
        1 if !case.log.is_empty() => {
            let at = dice.below(case.log.len());
            case.log[at] = chosen(dice, LIKELY);
        }
        2 => case.log.truncate(dice.below(case.log.len() + 1)),
        3 => {
            let at = dice.below(case.wanted.len() + 1);
            case.wanted.insert(at, chosen(dice, &[0, 1 + corrections.len() as u32, 300]));
        }
        4 => case.room = dice.below(ROOM),
        _ if !lines.is_empty() => {
            let correction = &mut corrections[chosen(dice, &lines)];
            let at = dice.below(correction.len());
            match dice.below(3) {
                0 => drop(correction.remove(at)),
                1 => correction.insert(at, correction[at].clone()),
                _ => correction.reverse(),
            }
            case.log = log(&corrections);
        }
        _ => {}
    }
}
