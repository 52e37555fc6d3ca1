//! What can begin a field's content, held to brute force over all that may follow;
//! and the byte that reading answers.

use std::collections::BTreeSet;

use reference::columns;
use reference::judge::{bad_byte, first_bad, is_continuation};
use reference::layout::{Field, CONTINUATION, HEAD, PRIMARY, TAIL};
use reference::parts::*;
use reference::{cases, read, write, Refusal};

/// From a column on, these bytes.
type Change<'a> = (usize, &'a str);

fn changed(base: &str, changes: &[Change]) -> Vec<u8> {
    let mut record = base.as_bytes().to_vec();
    for (first, content) in changes {
        record[first - 1..first - 1 + content.len()].copy_from_slice(content.as_bytes());
    }
    record
}

fn width(field: &Field) -> usize {
    field.1 - field.0 + 1
}

// ---- every front of every field

/// Bytes of every kind, those on either side of each among them; fewer where the
/// field is wide.
fn alphabet(width: usize) -> Vec<u8> {
    match width {
        1 | 2 => (0..=255).collect(),
        3 | 4 => b" +-/0123456789:@ACFHLTZ[az\0\x7f\xff".to_vec(),
        5 => b" +-/0159:@AFLTZ[a\0\xff".to_vec(),
        _ => b" +-/059:AZ[a\0\xff".to_vec(),
    }
}

/// Whether some content with these bytes in front is legal, found by trying all
/// bytes behind them; and of each front that is met on the way, whether the field's
/// own test says the same.
fn completes(field: &Field, record: &[u8], alphabet: &[u8], front: &mut Vec<u8>) -> bool {
    let Field(first, _, holds, begins) = field;
    let found = if front.len() == width(field) {
        holds(front, record)
    } else {
        let mut some = false;
        for byte in alphabet {
            front.push(*byte);
            some |= completes(field, record, alphabet, front);
            front.pop();
        }
        some
    };
    if !front.is_empty() {
        assert_eq!(begins(front, record), found, "{:?} at {first}", String::from_utf8_lossy(front));
    }
    found
}

/// All fronts of a field in a record; and whether it has some legal content there.
fn has_content(field: &Field, record: &[u8]) -> bool {
    completes(field, record, &alphabet(width(field)), &mut Vec::new())
}

#[test]
fn a_front_can_begin_what_some_completion_is() {
    let leg = changed(cases::LEG, &[]);
    for field in HEAD.iter().chain(PRIMARY).chain(TAIL) {
        assert!(has_content(field, &leg), "column {}", field.0);
    }
    let continuation = changed(cases::CONTINUATION, &[]);
    for field in &CONTINUATION[..2] {
        assert!(has_content(field, &continuation), "column {}", field.0);
    }
}

/// The field of a primary that begins in this column.
fn field_at(column: usize) -> &'static Field {
    HEAD.iter().chain(PRIMARY).chain(TAIL).find(|field| field.0 == column).expect("a field")
}

#[test]
fn the_same_beside_every_other_terminator_and_subsection() {
    for terminator in ["HA", "HF", "HM", "HC", "hm", "MH", "TF", "  "] {
        assert!(has_content(field_at(75), &changed(cases::LEG, &[(48, terminator)])));
    }
    for subsection in ["D", "E", "F"] {
        assert!(has_content(field_at(20), &changed(cases::LEG, &[(13, subsection)])));
    }
    for subsection in ["P", " ", "\0"] {
        assert!(!has_content(field_at(20), &changed(cases::LEG, &[(13, subsection)])));
    }
}

/// Too wide for all contents: every byte at some places, with blanks behind.
#[test]
fn the_bytes_of_a_continuation() {
    let Field(first, last, holds, begins) = &CONTINUATION[2];
    let record = changed(cases::CONTINUATION, &[]);
    let good = &record[first - 1..*last];
    for at in [0, 1, 2, 41, 80, 81, 82] {
        for byte in 0..=255 {
            let mut content = good.to_vec();
            content[at] = byte;
            for length in 1..=content.len() {
                let (front, rest) = content.split_at(length);
                let completed = [front, &vec![b' '; rest.len()]].concat();
                assert_eq!(begins(front, &record), holds(&completed, &record), "{byte} at {at}, {length}");
            }
        }
    }
}

// ---- the byte that is answered

/// Whether some content of the field begins so, found by trying what may follow:
/// these bytes complete whatever can be completed. In the widest field all that are
/// missing are tried as one.
fn some_completion(field: &Field, record: &[u8], front: &[u8]) -> bool {
    const ENOUGH: &[u8] = b" 01AFIL";
    let missing = width(field) - front.len();
    if missing == 0 {
        return (field.2)(front, record);
    }
    let more = if width(field) > 6 { missing } else { 1 };
    ENOUGH.iter().any(|byte| some_completion(field, record, &[front, &vec![*byte; more]].concat()))
}

/// The first column of the bad field, and that of the bad byte: so many columns
/// further as the longest front has bytes with which some legal content begins.
fn by_definition(record: &[u8]) -> Option<(usize, usize)> {
    let middle = if is_continuation(record) { CONTINUATION } else { PRIMARY };
    for field in HEAD.iter().chain(middle).chain(TAIL) {
        let Field(first, last, holds, _) = field;
        let there = &record[record.len().min(first - 1)..record.len().min(*last)];
        if there.len() < width(field) || !holds(there, record) {
            let begins = |length: &usize| some_completion(field, record, &there[..*length]);
            let longest = (1..=there.len()).rev().find(begins).unwrap_or(0);
            return Some((*first, first + longest));
        }
    }
    None
}

/// Holds both columns to the definition, and gives how far apart they are.
fn as_defined(record: &[u8]) -> Option<usize> {
    assert_eq!(first_bad(record).is_some(), bad_byte(record).is_some());
    let answered = first_bad(record).zip(bad_byte(record));
    assert_eq!(answered, by_definition(record), "{:?}", String::from_utf8_lossy(record));
    answered.map(|(field, byte)| byte - field)
}

/// The records of the stored set and of the proof, whole or in part, and good
/// records cut at every length.
fn stored_records() -> Vec<Vec<u8>> {
    let mut records: Vec<Vec<u8>> = cases::all();
    records.iter_mut().for_each(|record| record.truncate(132));
    records.extend(columns::all().into_iter().map(|vector| vector.record));
    for base in [cases::LEG, cases::CONTINUATION] {
        records.extend((0..=132).map(|length| base.as_bytes()[..length].to_vec()));
    }
    records
}

#[test]
fn the_byte_is_behind_the_longest_front_in_every_stored_record() {
    let met: BTreeSet<usize> = stored_records().iter().filter_map(|record| as_defined(record)).collect();
    assert!(met.is_superset(&(0..=5).collect()), "{met:?}");
}

#[test]
fn the_byte_is_behind_the_longest_front_with_every_byte_in_every_column() {
    for base in [cases::LEG, cases::CONTINUATION] {
        for at in 0..132 {
            let mut record = base.as_bytes()[..132].to_vec();
            for byte in 0..=255 {
                record[at] = byte;
                as_defined(&record);
            }
        }
    }
}

// ---- the cases that are named

/// Contents of a leg, with the terminator where it matters, and the column that
/// reading answers.
const NAMED: &[(&[Change], usize)] = &[
    (&[(27, "000")], 29),
    (&[(27, " 10")], 27),
    (&[(27, "10 ")], 29),
    (&[(27, "0A0")], 28),
    (&[(85, "-0000")], 89),
    (&[(85, "1500 ")], 89),
    (&[(85, " 1500")], 86),
    (&[(85, "FL18 ")], 89),
    (&[(85, "FX180")], 86),
    (&[(71, "3601")], 74),
    (&[(71, "361T")], 73),
    (&[(71, "37 T")], 72),
    (&[(63, "36 0")], 65),
    (&[(63, "3700")], 64),
    (&[(63, "4000")], 63),
    (&[(67, " 060")], 68),
    (&[(75, "T010")], 75),
    (&[(48, "HM"), (75, "TT10")], 76),
    (&[(48, "HM"), (75, "T01 ")], 78),
    (&[(129, "2114")], 132),
    (&[(129, "2000")], 132),
    (&[(129, "201 ")], 132),
    (&[(129, "2020")], 131),
    (&[(129, "A001")], 129),
    (&[(2, "A 1")], 4),
    (&[(2, "   ")], 2),
    (&[(2, "a  ")], 2),
    (&[(2, "A b")], 4),
    (&[(30, " A   ")], 31),
    (&[(51, "I  A")], 54),
    (&[(11, "K ")], 12),
    (&[(48, "CX")], 49),
    (&[(48, "C ")], 49),
    (&[(48, "XF")], 48),
    (&[(14, "ILS16/")], 19),
    (&[(81, " A")], 82),
    (&[(121, "  A")], 123),
    (&[(86, "\0")], 86),
];

fn refused_by_3(place: usize, column: usize) -> Refusal {
    Refusal { number: 3, place, column }
}

#[test]
fn the_named_contents_are_stored_and_answer_their_byte() {
    let stored = cases::all();
    for (changes, column) in NAMED {
        let record = changed(cases::LEG, changes);
        assert_eq!(read(&record), Err(refused_by_3(1, *column)), "{changes:?}");
        assert!(stored.contains(&record), "{changes:?} is not stored");
    }
    let note = changed(cases::CONTINUATION, &[(61, "\u{1f}")]);
    assert_eq!(read(&note), Err(refused_by_3(1, 61)));
    assert!(stored.contains(&note));
}

#[test]
fn a_blank_in_the_place_of_a_digit_is_answered() {
    let numbers = [27..=29, 45..=47, 57..=62, 63..=66, 67..=70, 71..=74, 75..=78, 85..=89, 90..=94];
    for field in numbers.into_iter().chain([95..=99, 100..=102, 124..=128, 129..=132]) {
        let (first, last) = field.into_inner();
        for blank in first + 1..=last {
            for behind in ["0", " "] {
                let content = format!("{} {}", "0".repeat(blank - first), behind.repeat(last - blank));
                let record = changed(cases::LEG, &[(first, &content)]);
                assert_eq!(read(&record), Err(refused_by_3(1, blank)), "{content:?} at {first}");
            }
        }
    }
}

// ---- writing

/// The leg of case 1 with parts changed.
fn written(change: fn(&mut Frame, &mut Leg)) -> Result<[u8; 133], Refusal> {
    let Ok(Parts::Leg(mut frame, mut leg)) = read(cases::LEG.as_bytes()) else { panic!("a good leg") };
    change(&mut frame, &mut leg);
    write(&Parts::Leg(frame, leg))
}

#[test]
fn writing_answers_the_first_column_of_the_field() {
    let refused = |column| Err(refused_by_3(0, column));
    // The byte 0 stands in 131.
    assert_eq!(written(|frame, _| frame.cycle.number = 100), refused(129));
    assert_eq!(written(|frame, _| frame.cycle.number = 15), refused(129));
    assert_eq!(written(|frame, _| frame.area = *b"A b"), refused(2));
    assert_eq!(written(|frame, _| frame.sequence = 0), refused(27));
    assert_eq!(written(|_, leg| leg.terminator = *b"CX"), refused(48));
    assert_eq!(written(|_, leg| leg.course = Some(Course::True(WholeDegrees(361)))), refused(71));
    assert_eq!(written(|_, leg| leg.altitude1 = Some(Altitude::Below(Feet(0)))), refused(85));
    let Ok(Parts::Continuation(frame, mut note)) = read(cases::CONTINUATION.as_bytes()) else {
        panic!("a good continuation")
    };
    note.bytes[41] = 31;
    assert_eq!(write(&Parts::Continuation(frame, note)), refused(41));
}
