//! The columns of a record: for each field its first and last column, the test
//! of its content, and the test of what its content can begin with. Columns count
//! from 1, as printed in the layout.

use crate::calendar::cycles;

/// A test of a field's bytes, or of the first of them; the whole record is there
/// for the two fields that depend on another column.
pub type Test = fn(field: &[u8], record: &[u8]) -> bool;

/// One field: first column, last column, the test of its content, and the test
/// whether one or more bytes can begin it: some content that is legal there in
/// this record begins with them.
pub struct Field(pub usize, pub usize, pub Test, pub Test);

/// A field with one test for both: fewer bytes that it accepts can begin the
/// content, and others can't. So it is with blanks, digits and letters, with text,
/// which blanks may follow, and where a whole content alone is shut out, as 000 is.
const fn alike(first: usize, last: usize, content: Test) -> Field {
    Field(first, last, content, content)
}

/// A field of one column.
const fn one(column: usize, content: Test) -> Field {
    alike(column, column, content)
}

/// Columns 1 to 38, the same on both kinds.
pub const HEAD: &[Field] = &[
    one(1, |f, _| b"ST".contains(&f[0])),
    alike(2, 4, |f, _| text(f)),
    one(5, |f, _| f == b"P"),
    one(6, |f, _| blank(f)),
    alike(7, 10, |f, _| text(f)),
    alike(11, 12, |f, _| icao(f)),
    one(13, |f, _| b"DEF".contains(&f[0])),
    alike(14, 19, |f, _| procedure(f)),
    one(20, |f, record| route_types(record[12]).contains(&f[0])),
    alike(21, 25, |f, _| blank(f) || text(f)),
    one(26, |f, _| blank(f)),
    alike(27, 29, |f, _| digits(f) && f != b"000"),
    alike(30, 34, |f, _| blank(f) || text(f)),
    alike(35, 36, |f, _| blank(f) || icao(f)),
    one(37, |f, _| section(f)),
    one(38, |f, _| letter_digit_or_blank(f)),
];

/// Columns 39 to 123 of a primary record.
pub const PRIMARY: &[Field] = &[
    one(39, |f, _| b"01".contains(&f[0])),
    one(40, |f, _| b" AEFGHNPRTV".contains(&f[0])),
    one(41, |f, _| b" BEUY".contains(&f[0])),
    one(42, |f, _| b" ABCGMPS".contains(&f[0])),
    one(43, |f, _| b" ABCDEFHIM".contains(&f[0])),
    one(44, |f, _| b" LRE".contains(&f[0])),
    alike(45, 47, |f, _| blank(f) || digits(f)),
    Field(48, 49, |f, _| needs(f).is_some(), |f, _| begins_terminator(f)),
    one(50, |f, _| b" Y".contains(&f[0])),
    alike(51, 54, |f, _| blank(f) || text(f)),
    alike(55, 56, |f, _| blank(f) || icao(f)),
    alike(57, 62, |f, _| blank(f) || digits(f)),
    Field(63, 66, |f, _| blank(f) || angle(f), |f, _| blank(f) || begins_angle(f)),
    alike(67, 70, |f, _| blank(f) || digits(f)),
    Field(71, 74, |f, _| blank(f) || course(f), |f, _| blank(f) || begins_course(f)),
    alike(75, 78, |f, record| {
        blank(f) || digits(f) || (is_hold(&record[47..49]) && f[0] == b'T' && digits(&f[1..]))
    }),
    one(79, |f, _| section(f)),
    one(80, |f, _| letter_digit_or_blank(f)),
    alike(81, 82, |f, _| blank(f)),
    one(83, |f, _| b" +-BCGHIJV".contains(&f[0])),
    one(84, |f, _| b" AS".contains(&f[0])),
    Field(85, 89, |f, _| blank(f) || altitude(f), |f, _| blank(f) || begins_altitude(f)),
    Field(90, 94, |f, _| blank(f) || altitude(f), |f, _| blank(f) || begins_altitude(f)),
    alike(95, 99, |f, _| blank(f) || digits(f)),
    alike(100, 102, |f, _| blank(f) || digits(f)),
    alike(103, 106, |f, _| blank(f) || (f[0] == b'-' && digits(&f[1..]))),
    alike(107, 111, |f, _| blank(f) || text(f)),
    one(112, |f, _| letter_digit_or_blank(f)),
    alike(113, 114, |f, _| blank(f) || icao(f)),
    one(115, |f, _| section(f)),
    one(116, |f, _| letter_digit_or_blank(f)),
    one(117, |f, _| letter_digit_or_blank(f)),
    one(118, |f, _| blank(f)),
    one(119, |f, _| letter_digit_or_blank(f)),
    one(120, |f, _| letter_digit_or_blank(f)),
    alike(121, 123, |f, _| blank(f)),
];

/// Columns 39 to 123 of a continuation record.
pub const CONTINUATION: &[Field] = &[
    one(39, |f, _| continues(f[0])),
    one(40, |f, _| b" PS".contains(&f[0])),
    alike(41, 123, |f, _| f.iter().all(|b| (32..=126).contains(b))),
];

/// Columns 124 to 132, the same on both kinds.
pub const TAIL: &[Field] =
    &[alike(124, 128, |f, _| digits(f)), Field(129, 132, |f, _| cycle(f), |f, _| begins_cycle(f))];

/// The companions: identifier, ICAO code, section, as (first, last) columns.
pub const FIX: [(usize, usize); 3] = [(30, 34), (35, 36), (37, 37)];
pub const NAVAID: [(usize, usize); 3] = [(51, 54), (55, 56), (79, 79)];
pub const CENTRE: [(usize, usize); 3] = [(107, 111), (113, 114), (115, 115)];

/// The 23 terminators by the fields they need, as letters: F fix, T turn,
/// N navaid, r arc radius, H theta, R rho, C course, D distance, A altitude,
/// c centre fix.
pub const TERMINATORS: [(&str, &str); 13] = [
    ("IF TF DF", "F"),
    ("CF FC FD", "FNHRCD"),
    ("FM", "FNHRC"),
    ("FA", "FNHRCA"),
    ("CA VA", "CA"),
    ("CD VD", "NCD"),
    ("CI VI VM", "C"),
    ("CR VR", "NHC"),
    ("AF", "FTNHRC"),
    ("RF", "FTDrc"),
    ("HF HM", "FTCD"),
    ("HA", "FTCDA"),
    ("PI", "FTNHRCDA"),
];

/// The 23 terminators, each with the letters of its needed fields.
pub(crate) fn each_terminator() -> impl Iterator<Item = (&'static str, &'static str)> {
    TERMINATORS.iter().flat_map(|(names, needed)| names.split(' ').map(move |name| (name, *needed)))
}

/// The letters of the fields a terminator needs; none if it isn't one of the 23.
pub fn needs(terminator: &[u8]) -> Option<&'static str> {
    each_terminator().find(|(name, _)| name.as_bytes() == terminator).map(|(_, needed)| needed)
}

fn begins_terminator(f: &[u8]) -> bool {
    each_terminator().any(|(name, _)| name.as_bytes().starts_with(f))
}

/// First and last column of a field that a terminator may need, by its letter.
pub fn needed_columns(letter: char) -> (usize, usize) {
    match letter {
        'F' => FIX[0],
        'T' => (44, 44),
        'N' => NAVAID[0],
        'r' => (57, 62),
        'H' => (63, 66),
        'R' => (67, 70),
        'C' => (71, 74),
        'D' => (75, 78),
        'A' => (85, 89),
        'c' => CENTRE[0],
        _ => unreachable!("no field has the letter {letter}"),
    }
}

/// Whether this byte in column 39 makes the record a continuation.
pub fn continues(number: u8) -> bool {
    (b'2'..=b'9').contains(&number) || number.is_ascii_uppercase()
}

/// The columns first to last of a record that has them.
pub fn columns(record: &[u8], (first, last): (usize, usize)) -> &[u8] {
    &record[first - 1..last]
}

pub fn blank(f: &[u8]) -> bool {
    f.iter().all(|b| *b == b' ')
}

/// The value of a string of digits.
pub fn number(f: &[u8]) -> u32 {
    f.iter().fold(0, |value, b| value * 10 + u32::from(*b - b'0'))
}

/// The route types of each subsection.
fn route_types(subsection: u8) -> &'static [u8] {
    match subsection {
        b'D' => b"0123456FMSTV",
        b'E' => b"123456789FMS",
        b'F' => b"ABEFGIJKLMNPRTUVWXYZ",
        _ => b"",
    }
}

fn is_hold(terminator: &[u8]) -> bool {
    terminator == b"HA" || terminator == b"HF" || terminator == b"HM"
}

fn letter_or_digit(b: u8) -> bool {
    b.is_ascii_uppercase() || b.is_ascii_digit()
}

fn digits(f: &[u8]) -> bool {
    f.iter().all(u8::is_ascii_digit)
}

/// One or more of A-Z, 0-9 and minus from the left, then blanks.
fn text(f: &[u8]) -> bool {
    let filled = f.iter().take_while(|b| letter_or_digit(**b) || **b == b'-').count();
    filled > 0 && blank(&f[filled..])
}

fn icao(f: &[u8]) -> bool {
    f.iter().all(|b| letter_or_digit(*b))
}

fn procedure(f: &[u8]) -> bool {
    f[0] != b' ' && f.iter().all(|b| letter_or_digit(*b) || *b == b'-' || *b == b' ')
}

fn section(f: &[u8]) -> bool {
    f[0] == b' ' || f[0].is_ascii_uppercase()
}

fn letter_digit_or_blank(f: &[u8]) -> bool {
    f[0] == b' ' || letter_or_digit(f[0])
}

/// Tenths of a degree, 0 to 3600.
fn angle(f: &[u8]) -> bool {
    digits(f) && number(f) <= 3600
}

fn begins_angle(f: &[u8]) -> bool {
    begins_number(f, 4, 3600)
}

/// Tenths of a degree; or whole degrees, 000 to 360, then T.
fn course(f: &[u8]) -> bool {
    angle(f) || (digits(&f[..3]) && number(&f[..3]) <= 360 && f[3] == b'T')
}

fn begins_course(f: &[u8]) -> bool {
    let (degrees, rest) = f.split_at(f.len().min(3));
    begins_angle(f) || (begins_number(degrees, 3, 360) && b"T".starts_with(rest))
}

/// Whether some number of so many digits that is at most this one begins with
/// these: the least that does has zeros behind them.
fn begins_number(f: &[u8], width: u32, most: u32) -> bool {
    digits(f) && number(f) * 10_u32.pow(width - f.len() as u32) <= most
}

/// Five digits; FL and three digits; or minus and four digits, not all 0.
fn altitude(f: &[u8]) -> bool {
    digits(f) || (f.starts_with(b"FL") && digits(&f[2..])) || below_zero(f)
}

fn begins_altitude(f: &[u8]) -> bool {
    let (letters, rest) = f.split_at(f.len().min(2));
    digits(f) || (b"FL".starts_with(letters) && digits(rest)) || below_zero(f)
}

/// With fewer digits it can still become another number than 0.
fn below_zero(f: &[u8]) -> bool {
    f[0] == b'-' && digits(&f[1..]) && f != b"-0000"
}

/// A year, and the number of one of its cycles.
fn cycle(f: &[u8]) -> bool {
    digits(f) && (1..=cycles(number(&f[..2]))).contains(&number(&f[2..]))
}

/// Any year; behind it the tens of a number that its cycles reach.
fn begins_cycle(f: &[u8]) -> bool {
    let (year, rest) = f.split_at(f.len().min(2));
    match rest {
        [] => digits(year),
        [_] => digits(f) && 10 * number(rest) <= cycles(number(year)),
        _ => cycle(f),
    }
}
