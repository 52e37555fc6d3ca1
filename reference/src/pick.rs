//! Picking: the whole log carried into the frozen file (10, 11), the wanted
//! corrections with those that they rely on (12), and the new file (14); and why
//! each one is taken, or what the first one that fails comes to.

use std::collections::{BTreeMap, BTreeSet};

use crate::file::{check, route, LINE};
use crate::layout::columns;
use crate::{log, Refusal};

/// The bytes that the longest new file takes, which every output buffer has to have.
pub const ROOM: usize = 480 * LINE;

const RECORD: usize = LINE - 1;
/// Added to an offset in the log, so that it is none in the frozen file.
pub const IN_LOG: usize = 1_000_000;

/// An accepted pick: the numbers of the corrections taken, rising, and of each
/// record of the new file its source and its 132 bytes.
#[derive(Clone, Debug, PartialEq, Eq)]
pub struct Picked<'a> {
    pub taken: Vec<usize>,
    pub sources: Vec<usize>,
    pub records: Vec<&'a [u8]>,
}

/// A correction that is taken, and why.
#[derive(Clone, Copy, Debug, PartialEq, Eq)]
pub struct Reason {
    pub correction: usize,
    pub why: Why,
}

#[derive(Clone, Copy, Debug, PartialEq, Eq)]
pub enum Why {
    Wanted,
    /// Nobody wants it, but this is the smallest correction taken that relies on
    /// it by itself; and the source is that of the record on its first line that
    /// does so.
    For {
        correction: usize,
        source: usize,
    },
}

/// The first correction of a log that can't be carried into the frozen file.
#[derive(Clone, Debug, PartialEq, Eq)]
pub struct Failure<'a> {
    pub correction: usize,
    pub cause: Cause<'a>,
}

#[derive(Clone, Debug, PartialEq, Eq)]
pub enum Cause<'a> {
    /// A D line that finds no such record, or an A line that finds its place
    /// taken: which line of the log, counted from 1.
    Line(usize),
    /// The first route that is refused after it: its records as they stand then,
    /// and the refusal of these alone.
    Route { sources: Vec<usize>, records: Vec<&'a [u8]>, refusal: Refusal },
}

impl Failure<'_> {
    pub fn refusal(&self) -> Refusal {
        let (number, column) = match &self.cause {
            Cause::Line(_) => (10, 0),
            Cause::Route { refusal, .. } => (11, usize::from(refusal.number)),
        };
        Refusal { number, place: self.correction, column }
    }
}

/// Judges a log with its frozen file.
pub fn check_log(frozen: &[u8], log: &[u8]) -> Result<(), Refusal> {
    open(frozen, log)?.judge()
}

/// What a log that is refused by 10 or 11 fails at.
pub fn failing<'a>(frozen: &'a [u8], log: &'a [u8]) -> Option<Failure<'a>> {
    open(frozen, log).ok()?.carry().err()
}

/// Picks the wanted corrections.
pub fn pick<'a>(frozen: &'a [u8], log: &'a [u8], wanted: &[u32]) -> Result<Picked<'a>, Refusal> {
    let (history, taken) = choose(frozen, log, wanted)?;
    let records = history.after(&taken).0.into_values();
    let (sources, records) = records.map(|held| (held.source, held.record)).unzip();
    Ok(Picked { taken: taken.into_iter().collect(), sources, records })
}

/// Picks the wanted corrections, and says of each one taken why it is, in rising
/// order.
pub fn reasons(frozen: &[u8], log: &[u8], wanted: &[u32]) -> Result<Vec<Reason>, Refusal> {
    let (history, taken) = choose(frozen, log, wanted)?;
    let why = |correction: usize| match wanted.contains(&(correction as u32)) {
        true => Why::Wanted,
        false => history.relying(&taken, correction).expect("what nobody wants or relies on is not taken"),
    };
    Ok(taken.iter().map(|correction| Reason { correction: *correction, why: why(*correction) }).collect())
}

/// Picks the wanted corrections and makes the new file, for a buffer of so
/// many bytes.
pub fn new_file(frozen: &[u8], log: &[u8], wanted: &[u32], room: usize) -> Result<Vec<u8>, Refusal> {
    if room < ROOM {
        return Err(Refusal { number: 14, place: 0, column: 0 });
    }
    Ok(pick(frozen, log, wanted)?.records.iter().flat_map(|record| [*record, b"\n"].concat()).collect())
}

// ---- states and corrections

/// A record's place: columns 1-25, 27-29 and 39, so that places in byte order
/// are the order of the file.
type Place = Vec<u8>;

pub(crate) fn place(record: &[u8]) -> Place {
    [route(record), columns(record, (27, 29)), columns(record, (39, 39))].concat()
}

/// A record and where it lies: its offset in the frozen file, or in the log.
#[derive(Clone, Copy)]
struct Held<'a> {
    record: &'a [u8],
    source: usize,
}

#[derive(Clone, Copy)]
enum Line<'a> {
    Out(Held<'a>),
    In(Held<'a>),
}

impl<'a> Line<'a> {
    fn held(&self) -> Held<'a> {
        match self {
            Line::Out(held) | Line::In(held) => *held,
        }
    }

    fn route(&self) -> &'a [u8] {
        route(self.held().record)
    }
}

/// The lines of a correction.
type Correction<'a> = Vec<Line<'a>>;

/// The routes that a correction touches, in rising byte order.
fn touched<'a>(correction: &Correction<'a>) -> BTreeSet<&'a [u8]> {
    correction.iter().map(Line::route).collect()
}

/// The records that stand, by place.
#[derive(Clone)]
struct State<'a>(BTreeMap<Place, Held<'a>>);

impl<'a> State<'a> {
    /// Applies the lines in order, up to the first that does not apply.
    fn apply(&mut self, correction: &Correction<'a>) -> Result<(), Line<'a>> {
        for line in correction {
            let Held { record, .. } = line.held();
            let applied = match line {
                Line::Out(_) => {
                    let stands = self.0.get(&place(record)).is_some_and(|held| held.record == record);
                    stands && self.0.remove(&place(record)).is_some()
                }
                Line::In(held) => self.0.insert(place(record), *held).is_none(),
            };
            if !applied {
                return Err(*line);
            }
        }
        Ok(())
    }

    /// The judgement of one route alone.
    fn judge_route(&self, wanted: &[u8]) -> Result<(), Cause<'a>> {
        let held = self.0.values().filter(|held| route(held.record) == wanted);
        let (sources, records): (Vec<usize>, Vec<&[u8]>) =
            held.map(|held| (held.source, held.record)).unzip();
        let lines: Vec<u8> = records.iter().flat_map(|record| [*record, b"\n"].concat()).collect();
        check(&lines).map_err(|refusal| Cause::Route { sources, records, refusal })
    }
}

/// A frozen file and the corrections to it, the first with number 1, with the
/// log that has them.
struct History<'a> {
    frozen: State<'a>,
    log: &'a [u8],
    corrections: Vec<Correction<'a>>,
}

/// Reads both texts, in the order of their refusals.
fn open<'a>(frozen: &'a [u8], log: &'a [u8]) -> Result<History<'a>, Refusal> {
    log::check_length(log)?;
    check(frozen)?;
    let records = frozen.chunks(LINE).map(|line| &line[..RECORD]);
    let held = records.enumerate().map(|(at, record)| Held { record, source: at * LINE });
    let state = State(held.map(|held| (place(held.record), held)).collect());
    let said = log::read(log, frozen.len() / LINE)?;
    let mut corrections: Vec<Correction> = (0..said.corrections).map(|_| Vec::new()).collect();
    for change in said.changes {
        let held = Held { record: &log[change.at..change.at + RECORD], source: IN_LOG + change.at };
        corrections[change.correction - 1].push(match change.letter {
            b'A' => Line::In(held),
            _ => Line::Out(held),
        });
    }
    Ok(History { frozen: state, log, corrections })
}

/// Judges everything, and says which corrections are taken.
fn choose<'a>(
    frozen: &'a [u8],
    log: &'a [u8],
    wanted: &[u32],
) -> Result<(History<'a>, BTreeSet<usize>), Refusal> {
    let history = open(frozen, log)?;
    history.know(wanted)?;
    history.judge()?;
    let taken = history.taken(wanted);
    Ok((history, taken))
}

impl<'a> History<'a> {
    /// Refuses the first wanted number that no correction has.
    fn know(&self, wanted: &[u32]) -> Result<(), Refusal> {
        match wanted.iter().position(|number| !(1..=self.corrections.len()).contains(&(*number as usize))) {
            Some(at) => Err(Refusal { number: 12, place: at + 1, column: 0 }),
            None => Ok(()),
        }
    }

    fn judge(&self) -> Result<(), Refusal> {
        self.carry().map_err(|failure| failure.refusal())
    }

    /// Carries all corrections into the frozen file, and judges the routes that
    /// each of them touches.
    fn carry(&self) -> Result<(), Failure<'a>> {
        let mut state = self.frozen.clone();
        for (number, correction) in (1..).zip(&self.corrections) {
            let failure = |cause| Failure { correction: number, cause };
            state.apply(correction).map_err(|line| failure(Cause::Line(self.number_of(line))))?;
            for route in touched(correction) {
                state.judge_route(route).map_err(failure)?;
            }
        }
        Ok(())
    }

    /// Which line of the log this is, counted from 1.
    fn number_of(&self, line: Line) -> usize {
        let before = &self.log[..line.held().source - IN_LOG];
        1 + before.iter().filter(|byte| **byte == b'\n').count()
    }

    /// The last correction before this one that touches a route.
    fn last_before(&self, number: usize, route: &[u8]) -> Option<usize> {
        (1..number).rev().find(|earlier| self.touches(*earlier, route))
    }

    /// The corrections that one relies on by itself: on each route that it
    /// touches, the last one before it.
    fn relied_on(&self, number: usize) -> BTreeSet<usize> {
        let routes = touched(&self.corrections[number - 1]).into_iter();
        routes.filter_map(|route| self.last_before(number, route)).collect()
    }

    /// The first of the corrections taken that relies on this one by itself, and
    /// its first line that makes it do so.
    fn relying(&self, taken: &BTreeSet<usize>, number: usize) -> Option<Why> {
        let relies = |later: usize, line: &&Line| self.last_before(later, line.route()) == Some(number);
        taken.range(number + 1..).find_map(|later| {
            let line = self.corrections[*later - 1].iter().find(|line| relies(*later, line))?;
            Some(Why::For { correction: *later, source: line.held().source })
        })
    }

    fn touches(&self, number: usize, route: &[u8]) -> bool {
        self.corrections[number - 1].iter().any(|line| line.route() == route)
    }

    /// The wanted ones, those that they rely on, those that these rely on, and
    /// so on.
    fn taken(&self, wanted: &[u32]) -> BTreeSet<usize> {
        let mut taken = BTreeSet::new();
        let mut open: Vec<usize> = wanted.iter().map(|number| *number as usize).collect();
        while let Some(number) = open.pop() {
            if taken.insert(number) {
                open.extend(self.relied_on(number));
            }
        }
        taken
    }

    /// The frozen file with these corrections alone, in order.
    fn after(&self, taken: &BTreeSet<usize>) -> State<'a> {
        let mut state = self.frozen.clone();
        for number in taken {
            let applied = state.apply(&self.corrections[*number - 1]);
            assert!(applied.is_ok(), "correction {number} has all that it relies on");
        }
        state
    }
}
