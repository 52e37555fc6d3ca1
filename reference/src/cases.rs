//! The stored set of records: one good record of each kind, every field at its
//! limits, content that goes wrong at a later byte, every terminator, companions,
//! faults side by side, cut records and damage at random places.

use std::collections::HashSet;

use crate::layout::{each_terminator, needed_columns, CENTRE, FIX, NAVAID};

/// Case 1: a good primary record with every field filled.
pub const LEG: &str = concat!(
    "SUSAP KSEAK1FI16L-ZIELMAA 030KARFOK1EA",        // 1-38
    "0EBAFL010CFYSEA K10045001632012316350057",      // 39-78
    "DA  +A03200FL18018000210-300WHIDBAK1PCD 0S   ", // 79-123
    "123452013\n",
);

/// Case 2: a good continuation record.
pub const CONTINUATION: &str = concat!(
    "SUSAP KSEAK1FI16L-ZIELMAA 030KARFOK1EA2P", // 1-40
    "Note 1: RADAR REQUIRED ~ [CAT A-D] \"0200\"  !  0250 0300; see {chart} 10-9 <end>    ", // 41-123
    "678900113\n",
);

/// A change: from this column on, these bytes.
type Change<'a> = (usize, &'a str);

/// All cases in order, each once.
pub fn all() -> Vec<Vec<u8>> {
    let mut cases = vec![leg(&[]), continuation(&[])];
    field_limits(&mut cases);
    cycles(&mut cases);
    bad_bytes(&mut cases);
    route_types(&mut cases);
    terminators(&mut cases);
    companions(&mut cases);
    altitude_description(&mut cases);
    continuations(&mut cases);
    several_faults(&mut cases);
    lengths(&mut cases);
    damaged(&mut cases);
    let mut seen = HashSet::new();
    cases.retain(|case| seen.insert(case.clone()));
    cases
}

/// The cases as they are stored: each a byte of length and then its bytes.
pub fn stored(cases: &[Vec<u8>]) -> Vec<u8> {
    let mut bytes = Vec::new();
    for case in cases {
        bytes.push(u8::try_from(case.len()).expect("a case has at most 255 bytes"));
        bytes.extend(case);
    }
    bytes
}

fn put(record: &mut [u8], first: usize, bytes: &[u8]) {
    record[first - 1..first - 1 + bytes.len()].copy_from_slice(bytes);
}

fn erase(record: &mut [u8], (first, last): (usize, usize)) {
    record[first - 1..last].fill(b' ');
}

fn changed(base: &str, changes: &[Change]) -> Vec<u8> {
    let mut record = base.as_bytes().to_vec();
    for (first, bytes) in changes {
        put(&mut record, *first, bytes.as_bytes());
    }
    record
}

fn leg(changes: &[Change]) -> Vec<u8> {
    changed(LEG, changes)
}

fn continuation(changes: &[Change]) -> Vec<u8> {
    changed(CONTINUATION, changes)
}

/// The wider fields of a primary at their limits, good and bad ones mixed; of
/// a single column the sweep of case 1 has every byte.
fn field_limits(cases: &mut Vec<Vec<u8>>) {
    let altitudes: &[&str] =
        &["00000", "99999", "FL000", "FL999", "-0001", "-9999", "-0120", "-0000", " 1500", "     "];
    let limits: &[(usize, &[&str])] = &[
        (2, &["U  ", "   ", "U A", "A-9"]),
        (7, &["K   ", "    ", " SEA"]),
        (11, &["09", "  "]),
        (14, &["I     ", "I 6 -Z", "      "]),
        (21, &["     ", "A    ", "A B  "]),
        (27, &["001", "010", "100", "999", "000"]),
        (30, &["A    ", "-----", "A B  "]),
        (40, &["    ", "VYSM"]),
        (45, &["000", "999", "   "]),
        (48, &["  ", "cf", "HC"]),
        (51, &["S-09", "S A "]),
        (57, &["000000", "999999", "      "]),
        (63, &["0000", "3600", "3601", "9999"]),
        (67, &["0000", "9999"]),
        (71, &["0000", "3600", "3601", "000T", "360T", "361T", "999T", "T360"]),
        (75, &["0000", "9999", "T010"]),
        (85, altitudes),
        (90, altitudes),
        (95, &["00000", "99999", "     ", "FL180"]),
        (100, &["000", "999", "   "]),
        (103, &["-000", "-999", "0300", "    "]),
        (107, &["A    ", "WH D "]),
        (119, &["  "]),
        (124, &["00000", "99999", "     "]),
        (129, &["2000", "2001", "2010", "2020", "0001", "9913"]),
    ];
    for (first, contents) in limits {
        cases.extend(contents.iter().map(|content| leg(&[(*first, content)])));
    }
    for (terminator, distance) in [("HM", "T010"), ("HA", "T000"), ("HF", "T999"), ("PI", "T010")] {
        cases.push(leg(&[(48, terminator), (75, distance)]));
    }
}

/// A fourteenth cycle in the years that have it, in years next to them and in
/// those that would have it by another count; the one before it, and a fifteenth.
pub(crate) const CYCLES: [&str; 12] =
    ["2013", "2014", "2015", "2114", "4214", "4314", "6414", "6514", "7614", "9714", "9814", "9914"];

fn cycles(cases: &mut Vec<Vec<u8>>) {
    cases.extend(CYCLES.map(|content| leg(&[(129, content)])));
    cases.extend(["2014", "2114", "9814"].map(|content| continuation(&[(129, content)])));
}

/// Contents of every kind that can't go on at some byte, most of them not at their
/// first: too short, with a blank inside, past a limit, of no form.
fn bad_bytes(cases: &mut Vec<Vec<u8>>) {
    let contents: &[(usize, &[&str])] = &[
        (2, &["A 1", "a  ", "A b"]),
        (11, &["K "]),
        (14, &["ILS16/"]),
        (27, &[" 10", "10 ", "0A0"]),
        (30, &[" A   "]),
        (48, &["CX", "C ", "XF"]),
        (51, &["I  A"]),
        (63, &["36 0", "3700", "4000"]),
        (67, &[" 060"]),
        (71, &["37 T"]),
        (81, &[" A"]),
        (85, &["1500 ", "FL18 ", "FX180"]),
        (86, &["\0"]),
        (121, &["  A"]),
        (129, &["201 ", "A001"]),
    ];
    for (first, contents) in contents {
        cases.extend(contents.iter().map(|content| leg(&[(*first, content)])));
    }
    cases.extend(["TT10", "T01 "].map(|distance| leg(&[(48, "HM"), (75, distance)])));
    cases.push(continuation(&[(61, "\u{1f}")]));
}

/// The codes of departures and arrivals and those next to them; of the
/// approaches the sweep of case 1 has every one.
fn route_types(cases: &mut Vec<Vec<u8>>) {
    for (subsection, codes) in [("D", "0123456FMSTV/7GNUW"), ("E", "123456789FMS0:ET"), ("F", "ACH")] {
        for at in 0..codes.len() {
            cases.push(leg(&[(13, subsection), (20, &codes[at..at + 1])]));
        }
    }
}

/// The group of the field with this letter, or the field itself.
fn group(letter: char) -> Vec<(usize, usize)> {
    match letter {
        'F' => FIX.to_vec(),
        'N' => NAVAID.to_vec(),
        'c' => CENTRE.to_vec(),
        _ => vec![needed_columns(letter)],
    }
}

/// Each terminator with everything filled, with only what it needs, and with
/// each needed field blank.
fn terminators(cases: &mut Vec<Vec<u8>>) {
    for (terminator, needed) in each_terminator() {
        let good = leg(&[(48, terminator)]);
        let mut bare = good.clone();
        erase(&mut bare, (30, 38));
        erase(&mut bare, (40, 47));
        erase(&mut bare, (50, 120));
        for letter in needed.chars() {
            for field in group(letter) {
                put(&mut bare, field.0, &good[field.0 - 1..field.1]);
            }
        }
        cases.push(good.clone());
        cases.push(bare);
        for letter in needed.chars() {
            let mut record = good.clone();
            group(letter).into_iter().for_each(|field| erase(&mut record, field));
            cases.push(record);
        }
    }
}

/// Each companion blank alone and filled alone.
fn companions(cases: &mut Vec<Vec<u8>>) {
    for group in [FIX, NAVAID, CENTRE] {
        for member in group {
            let mut one_blank = leg(&[]);
            erase(&mut one_blank, member);
            cases.push(one_blank);
            let mut one_filled = leg(&[]);
            for other in group.into_iter().filter(|other| *other != member) {
                erase(&mut one_filled, other);
            }
            cases.push(one_filled);
        }
    }
}

/// Altitude description B with each altitude blank, on two kinds of leg.
fn altitude_description(cases: &mut Vec<Vec<u8>>) {
    for terminator in ["CF", "IF"] {
        for altitudes in ["03200     ", "     FL180", "          "] {
            cases.push(leg(&[(48, terminator), (83, "B"), (85, altitudes)]));
        }
    }
}

/// Continuations: the numbers, the application, the bytes; no companions there.
fn continuations(cases: &mut Vec<Vec<u8>>) {
    let contents: &[(usize, &[&str])] = &[
        (27, &["000"]),
        (30, &["     "]),
        (35, &["  "]),
        (39, &["9", "A", "Z", ":", "a", "1"]),
        (40, &["S", " ", "E"]),
        (41, &["\u{1f}"]),
        (123, &["\u{7f}"]),
        (124, &["6789 "]),
    ];
    for (first, contents) in contents {
        cases.extend(contents.iter().map(|content| continuation(&[(*first, content)])));
    }
    cases.push(continuation(&[(41, &" ".repeat(83))]));
    cases.push(leg(&[(39, "2")]));
    cases.push(leg(&[(39, "2"), (40, "P"), (55, "  "), (63, "3601")]));
}

/// Several faults in one record: the first in order wins.
fn several_faults(cases: &mut Vec<Vec<u8>>) {
    let faults: &[&[Change]] = &[
        &[(1, "X"), (129, "2114")],
        &[(13, "G"), (20, "H")],
        &[(48, "ZZ"), (75, "T010")],
        &[(39, ":"), (40, "X"), (27, "000")],
        &[(35, "  "), (129, "2114")],
        &[(113, "  "), (63, "    ")],
        &[(79, " "), (107, "     ")],
        &[(37, " "), (51, "    ")],
        &[(71, "    "), (75, "    "), (67, "    ")],
        &[(48, "PI"), (44, " "), (85, "     ")],
        &[(48, "CA"), (83, "B"), (85, "          "), (71, "    ")],
        &[(63, "3601"), (71, "    "), (30, "     ")],
    ];
    cases.extend(faults.iter().map(|changes| leg(changes)));
}

/// Cut records, a wrong byte 133 and too many bytes.
fn lengths(cases: &mut Vec<Vec<u8>>) {
    let good = leg(&[]);
    cases.extend([0, 1, 38, 131, 132].map(|length| good[..length].to_vec()));
    cases.push(leg(&[(1, "X")])[..132].to_vec());
    cases.push(leg(&[(133, "\r")]));
    cases.push(leg(&[(1, "X"), (133, "\0")]));
    for (byte_133, length) in [("\n", 134), (" ", 134), ("\n", 200), ("0", 255), ("\n", 255)] {
        let mut long = leg(&[(133, byte_133)]);
        long.resize(length, b'\n');
        cases.push(long);
    }
}

/// A small generator (xorshift with 64 bits) with a fixed seed.
pub(crate) struct Dice(pub(crate) u64);

impl Dice {
    pub(crate) fn below(&mut self, limit: usize) -> usize {
        self.0 ^= self.0 << 13;
        self.0 ^= self.0 >> 7;
        self.0 ^= self.0 << 17;
        ((self.0 >> 20) % limit as u64) as usize
    }
}

/// Sixty records with one to three bytes changed at random places, half of
/// them to bytes that often are legal.
fn damaged(cases: &mut Vec<Vec<u8>>) {
    const LIKELY: &[u8] = b"0123456789 -ABEFLPRST";
    let names: Vec<&str> = each_terminator().map(|(name, _)| name).collect();
    let mut dice = Dice(0x4152_494e_4334_3234);
    for _ in 0..60 {
        let mut record = match dice.below(4) {
            0 => continuation(&[]),
            _ => leg(&[(48, names[dice.below(names.len())])]),
        };
        for _ in 0..1 + dice.below(3) {
            let at = dice.below(133);
            record[at] = match dice.below(2) {
                0 => LIKELY[dice.below(LIKELY.len())],
                _ => dice.below(256) as u8,
            };
        }
        cases.push(record);
    }
}
