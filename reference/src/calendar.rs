//! The cycles of each year: one begins every 28 days, 9801 on 1 January 1998, and
//! each belongs to the year that it begins in.

/// The first of the years that two digits name.
const FIRST: usize = 1980;

/// How many cycles begin in each of them.
const CYCLES: [u32; 100] = walked();

/// How many cycles the year has that these two digits name, 80 for 1980 to 79 for
/// 2079.
pub fn cycles(digits: u32) -> u32 {
    let year = if digits < 80 { 2000 + digits } else { 1900 + digits };
    CYCLES[year as usize - FIRST]
}

const fn days(year: usize) -> usize {
    let leap = year % 4 == 0 && (year % 100 != 0 || year % 400 == 0);
    if leap {
        366
    } else {
        365
    }
}

/// Walks from 9801 back to the first cycle, and from there on to the last, by the
/// year and the day of it, counted from 0, on which each begins.
const fn walked() -> [u32; 100] {
    let (mut year, mut day) = (1998, 0);
    while year > FIRST || day >= 28 {
        if day < 28 {
            year -= 1;
            day += days(year);
        }
        day -= 28;
    }
    let mut begun = [0; 100];
    while year < FIRST + begun.len() {
        begun[year - FIRST] += 1;
        day += 28;
        if day >= days(year) {
            day -= days(year);
            year += 1;
        }
    }
    begun
}
