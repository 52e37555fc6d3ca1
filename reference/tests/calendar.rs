//! The cycles of a year, held to day numbers, and every content of the cycle's field.

use reference::calendar::cycles;
use reference::{cases, judge};

/// The number of a day of the Gregorian calendar, one more for each day (Fliegel
/// and Van Flandern's Julian day number).
fn day_number(year: i64, month: i64, day: i64) -> i64 {
    let late = (month - 14) / 12;
    (1461 * (year + 4800 + late)) / 4 + (367 * (month - 2 - 12 * late)) / 12
        - (3 * ((year + 4900 + late) / 100)) / 4
        + day
        - 32075
}

fn begins(day: i64) -> bool {
    (day - day_number(1998, 1, 1)).rem_euclid(28) == 0
}

/// The years as two digits, in the order of the years.
fn years() -> impl Iterator<Item = (u32, i64)> {
    (80..100)
        .map(|digits| (digits, 1900 + i64::from(digits)))
        .chain((0..80).map(|digits| (digits, 2000 + i64::from(digits))))
}

#[test]
fn as_many_as_days_that_begin_one() {
    for (digits, year) in years() {
        let begun = (day_number(year, 1, 1)..day_number(year + 1, 1, 1)).filter(|day| begins(*day)).count();
        assert_eq!(cycles(digits) as usize, begun, "{year}");
    }
}

#[test]
fn fourteen_in_four_years() {
    let fourteen: Vec<u32> = (0..100).filter(|digits| cycles(*digits) == 14).collect();
    assert_eq!(fourteen, [20, 43, 65, 98]);
    assert_eq!((0..100).filter(|digits| cycles(*digits) == 13).count(), 96);
    for (digits, year) in years() {
        assert_eq!(cycles(digits) == 14, begins(day_number(year, 12, 31)), "{year}");
    }
}

#[test]
fn days_that_are_known() {
    assert_eq!(day_number(2000, 1, 1), 2_451_545);
    assert!(
        begins(day_number(2020, 1, 2)) && begins(day_number(2020, 12, 31)) && begins(day_number(2021, 1, 28))
    );
}

#[test]
fn every_content_on_both_kinds() {
    for base in [cases::LEG, cases::CONTINUATION] {
        for content in 0..10_000 {
            let mut record = base.as_bytes()[..132].to_vec();
            record[128..].copy_from_slice(format!("{content:04}").as_bytes());
            let (year, number) = (content / 100, content % 100);
            let expected = match number {
                1..=13 => Ok(()),
                14 if [20, 43, 65, 98].contains(&year) => Ok(()),
                // No number of a cycle begins so.
                20.. => Err((3, 131)),
                _ => Err((3, 132)),
            };
            assert_eq!(judge(&record), expected, "{content:04}");
        }
    }
}
