//! The requirement's own cases that speak of one record.

use reference::parts::*;
use reference::{cases, judge, read, Refusal};

/// Case 1 with these changes: from a column on, these bytes.
fn record(changes: &[(usize, &str)]) -> Vec<u8> {
    let mut bytes = cases::LEG.as_bytes().to_vec();
    for (first, content) in changes {
        bytes[first - 1..first - 1 + content.len()].copy_from_slice(content.as_bytes());
    }
    bytes
}

fn good(changes: &[(usize, &str)]) -> (Frame, Leg) {
    match read(&record(changes)) {
        Ok(Parts::Leg(frame, leg)) => (frame, leg),
        other => panic!("{changes:?} reads as {other:?}"),
    }
}

fn refused(changes: &[(usize, &str)], number: u8, column: usize) {
    assert_eq!(read(&record(changes)), Err(Refusal { number, place: 1, column }), "{changes:?}");
}

#[test]
fn altitudes() {
    assert_eq!(good(&[(85, "FL180")]).1.altitude1, Some(Altitude::Level(FlightLevel(180))));
    assert_eq!(good(&[(85, "-0120")]).1.altitude1, Some(Altitude::Below(Feet(120))));
    refused(&[(85, "-0000")], 3, 89);
    refused(&[(85, " 1500")], 3, 86);
}

#[test]
fn courses() {
    assert_eq!(good(&[(71, "3600")]).1.course, Some(Course::Magnetic(TenthsOfDegree(3600))));
    refused(&[(71, "3601")], 3, 74);
    assert_eq!(good(&[(71, "360T")]).1.course, Some(Course::True(WholeDegrees(360))));
    refused(&[(71, "361T")], 3, 73);
}

#[test]
fn one_minute_is_for_holds_alone() {
    assert_eq!(good(&[(48, "HM"), (75, "T010")]).1.distance, Some(Distance::Minutes(TenthsOfMinute(10))));
    refused(&[(48, "CF"), (75, "T010")], 3, 75);
}

#[test]
fn a_needed_altitude() {
    refused(&[(48, "CA"), (85, "     ")], 5, 85);
}

#[test]
fn cycles() {
    assert_eq!(good(&[(129, "2013")]).0.cycle, Cycle { year: 20, number: 13 });
    assert_eq!(good(&[(129, "2014")]).0.cycle, Cycle { year: 20, number: 14 });
    assert_eq!(good(&[(129, "9814")]).0.cycle, Cycle { year: 98, number: 14 });
    refused(&[(129, "2114")], 3, 132);
}

#[test]
fn a_missing_byte_is_legal_nowhere() {
    let whole = record(&[]);
    assert_eq!(judge(&whole[..132]), Ok(()));
    assert_eq!(judge(&whole[..131]), Err((3, 132)));
    assert_eq!(judge(&whole[..128]), Err((3, 129)));
    assert_eq!(judge(&whole[..38]), Err((3, 39)));
    assert_eq!(judge(&[]), Err((3, 1)));
}
