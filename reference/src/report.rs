//! The answers to the stored set as text: a line a case with the values of its
//! parts, writes with parts changed, and the sweep of each column over all bytes.

use crate::cases;
use crate::judge::judge;
use crate::parts::*;
use crate::record::{read, write};
use crate::Refusal;

/// What reading each case alone gives, what writing changed parts gives, and
/// what judging says of every byte in every column of the first two cases.
pub fn all(cases: &[Vec<u8>]) -> String {
    let mut lines: Vec<String> = cases.iter().map(|case| answer(case)).collect();
    lines.extend(writes());
    lines.extend((1..=132).map(|column| sweep("leg", &cases[0], column)));
    lines.extend((1..=132).map(|column| sweep("continuation", &cases[1], column)));
    lines.join("\n") + "\n"
}

/// The line of one case, read and written again.
fn answer(case: &[u8]) -> String {
    let parts = match read(case) {
        Ok(parts) => parts,
        Err(refusal) => return refused(refusal),
    };
    let back = match write(&parts) {
        Ok(bytes) if bytes == case => "same",
        _ => "differs",
    };
    let (mut fields, frame) = match &parts {
        Parts::Leg(frame, leg) => (leg_fields(frame, leg), frame),
        Parts::Continuation(frame, _) => {
            let number = char::from(frame.continuation_number);
            (vec!["continuation".to_string(), frame.sequence.to_string(), number.to_string()], frame)
        }
    };
    fields.extend([frame.file_record, frame.cycle.year, frame.cycle.number].map(|n| n.to_string()));
    fields.push(back.to_string());
    fields.join("\t")
}

fn refused(refusal: Refusal) -> String {
    format!("no\t{}\t{}\t{}", refusal.number, refusal.place, refusal.column)
}

/// A value that may be absent.
fn shown(value: Option<impl ToString>) -> String {
    value.map_or("-".to_string(), |value| value.to_string())
}

fn altitude(altitude: Altitude) -> String {
    match altitude {
        Altitude::Above(feet) => format!("f{}", feet.0),
        Altitude::Below(feet) => format!("b{}", feet.0),
        Altitude::Level(level) => format!("l{}", level.0),
    }
}

fn course(course: Course) -> String {
    match course {
        Course::Magnetic(tenths) => format!("m{}", tenths.0),
        Course::True(degrees) => format!("t{}", degrees.0),
    }
}

fn distance(distance: Distance) -> String {
    match distance {
        Distance::Miles(tenths) => format!("d{}", tenths.0),
        Distance::Minutes(tenths) => format!("t{}", tenths.0),
    }
}

fn leg_fields(frame: &Frame, leg: &Leg) -> Vec<String> {
    vec![
        "leg".to_string(),
        leg.terminator.map(char::from).iter().collect(),
        frame.sequence.to_string(),
        shown(leg.rnp),
        shown(leg.arc_radius.map(|radius| radius.0)),
        shown(leg.theta.map(|theta| theta.0)),
        shown(leg.rho.map(|rho| rho.0)),
        shown(leg.course.map(course)),
        shown(leg.distance.map(distance)),
        shown(leg.altitude1.map(altitude)),
        shown(leg.altitude2.map(altitude)),
        shown(leg.transition_altitude.map(|feet| feet.0)),
        shown(leg.speed),
        shown(leg.vertical_angle.map(|VerticalAngle::Down(angle)| angle.0)),
    ]
}

/// One column with every byte: the runs of bytes that get the same answer.
fn sweep(kind: &str, case: &[u8], column: usize) -> String {
    let mut record = case[..132].to_vec();
    let mut runs: Vec<(u8, u8, (u8, usize))> = Vec::new();
    for byte in 0..=255 {
        record[column - 1] = byte;
        let answer = judge(&record).err().unwrap_or((0, 0));
        match runs.last_mut() {
            Some(run) if run.2 == answer => run.1 = byte,
            _ => runs.push((byte, byte, answer)),
        }
    }
    let mut line = format!("sweep\t{kind}\t{column}");
    for (from, to, (number, column)) in runs {
        line += &format!("\t{from}-{to}:{number}:{column}");
    }
    line
}

/// The changes of case 1 that are written, in order.
const LEG_CHANGES: [fn(&mut Frame, &mut Leg); 45] = [
    |_, _| {},
    |frame, _| frame.sequence = 0,
    |frame, _| frame.sequence = 1000,
    |_, leg| leg.rnp = Some(1000),
    |_, leg| leg.arc_radius = Some(ThousandthsOfMile(1_000_000)),
    |_, leg| leg.theta = Some(TenthsOfDegree(3601)),
    |_, leg| leg.rho = Some(TenthsOfMile(10_000)),
    |_, leg| leg.course = Some(Course::Magnetic(TenthsOfDegree(3601))),
    |_, leg| leg.course = Some(Course::True(WholeDegrees(361))),
    |_, leg| leg.course = Some(Course::True(WholeDegrees(360))),
    |_, leg| leg.distance = Some(Distance::Miles(TenthsOfMile(10_000))),
    |_, leg| leg.distance = Some(Distance::Minutes(TenthsOfMinute(10))),
    |_, leg| (leg.distance, leg.terminator) = (Some(Distance::Minutes(TenthsOfMinute(10))), *b"HM"),
    |_, leg| (leg.distance, leg.terminator) = (Some(Distance::Minutes(TenthsOfMinute(1000))), *b"HM"),
    |_, leg| leg.altitude1 = Some(Altitude::Above(Feet(100_000))),
    |_, leg| leg.altitude1 = Some(Altitude::Below(Feet(0))),
    |_, leg| leg.altitude1 = Some(Altitude::Below(Feet(10_000))),
    |_, leg| leg.altitude1 = Some(Altitude::Below(Feet(120))),
    |_, leg| leg.altitude1 = Some(Altitude::Level(FlightLevel(1000))),
    |_, leg| leg.altitude2 = Some(Altitude::Level(FlightLevel(1000))),
    |_, leg| leg.transition_altitude = Some(Feet(100_000)),
    |_, leg| leg.speed = Some(1000),
    |_, leg| leg.vertical_angle = Some(VerticalAngle::Down(HundredthsOfDegree(1000))),
    |frame, _| frame.file_record = 100_000,
    |frame, _| frame.cycle.number = 15,
    |frame, _| frame.cycle.number = 0,
    |frame, _| frame.cycle.year = 100,
    |frame, _| frame.airport = *b" KSE",
    |frame, _| frame.fix = None,
    |frame, _| frame.fix_icao = None,
    |frame, _| frame.fix_section = None,
    |_, leg| leg.navaid = None,
    |_, leg| leg.centre_section = None,
    |_, leg| leg.theta = None,
    |_, leg| leg.course = None,
    |_, leg| leg.distance = None,
    |frame, _| (frame.fix, frame.fix_icao, frame.fix_section) = (None, None, None),
    |_, leg| (leg.altitude_description, leg.altitude2) = (b'B', None),
    |_, leg| (leg.altitude_description, leg.altitude1, leg.altitude2) = (b'B', None, None),
    |frame, leg| (leg.theta, leg.course, frame.fix) = (Some(TenthsOfDegree(3601)), None, None),
    |frame, _| frame.continuation_number = b'2',
    |frame, _| frame.cycle = Cycle { year: 20, number: 14 },
    |frame, _| frame.cycle = Cycle { year: 98, number: 14 },
    |frame, _| frame.cycle = Cycle { year: 21, number: 14 },
    |frame, _| frame.cycle.number = 100,
];

/// The changes of case 2 that are written, in order.
const CONTINUATION_CHANGES: [fn(&mut Frame, &mut Continuation); 6] = [
    |_, _| {},
    |frame, _| frame.sequence = 0,
    |_, continuation| continuation.bytes[41] = 31,
    |frame, _| frame.continuation_number = b'1',
    |frame, _| frame.cycle = Cycle { year: 20, number: 14 },
    |frame, _| frame.cycle = Cycle { year: 21, number: 14 },
];

/// A line for each write.
fn writes() -> Vec<String> {
    let (Ok(Parts::Leg(leg_frame, leg)), Ok(Parts::Continuation(frame, continuation))) =
        (read(cases::LEG.as_bytes()), read(cases::CONTINUATION.as_bytes()))
    else {
        panic!("case 1 is no good leg or case 2 no good continuation");
    };
    let legs = LEG_CHANGES.iter().map(|change| {
        let (mut frame, mut leg) = (leg_frame, leg);
        change(&mut frame, &mut leg);
        Parts::Leg(frame, leg)
    });
    let continuations = CONTINUATION_CHANGES.iter().map(|change| {
        let (mut frame, mut continuation) = (frame, continuation);
        change(&mut frame, &mut continuation);
        Parts::Continuation(frame, continuation)
    });
    let line = |(at, parts)| {
        let answer = write(&parts).map_or_else(refused, |_| "yes".to_string());
        format!("write\t{}\t{answer}", at + 1)
    };
    legs.chain(continuations).enumerate().map(line).collect()
}
