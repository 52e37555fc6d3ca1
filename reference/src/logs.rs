//! The stored set of logs and of wanted lists, and what reading them gives.
//!
//! They are kept as instructions of three bytes, since most of their bytes are
//! alike:
//!
//! - 0, 0, 0: the log is whole, and the next text begins
//! - 1, l, b: the letter l, a tab, 132 bytes b and a line feed
//! - 2, h, l: C, a tab, the number 256 h + l and a line feed
//! - 3, h, l: the last 256 h + l bytes taken away
//! - 4, b, n: the byte b, n times
//! - 5, 0, 0: behind the end of a text: the next begins as all of it
//! - 6, 0, 0: the list is whole, and the next text begins
//! - 7, h, l: there are 256 h + l frozen records beside the log

use crate::cases::Dice;
use crate::log::read;
use crate::wanted::numbers;
use crate::Stored;

/// A log beside some frozen records, or a list of wanted numbers.
#[derive(Clone, Debug, PartialEq, Eq)]
pub enum Text {
    Log(Vec<u8>, usize),
    Wanted(Vec<u8>),
}

/// The stored set of logs and lists, and the answers.
pub fn stored_files() -> [Stored; 2] {
    let set = all();
    [
        ("../crates/vectors_log/data/texts.bin", instructions(&set)),
        ("../crates/vectors_log/stdout", set.iter().map(answer).collect::<String>().into_bytes()),
    ]
}

/// The line of one text: what a log says, with each of its D and A lines; or
/// the numbers of a list.
fn answer(text: &Text) -> String {
    match text {
        Text::Log(log, frozen) => match read(log, *frozen) {
            Ok(said) => {
                let mut line = format!("yes\t{}\t{}", said.corrections, said.changes.len());
                for change in said.changes {
                    line += &format!("\t{}\t{}\t{}", change.letter, change.at, change.correction);
                }
                line + "\n"
            }
            Err(refusal) => format!("no\t{}\t{}\t{}\n", refusal.number, refusal.place, refusal.column),
        },
        Text::Wanted(list) => {
            let numbers = numbers(list);
            let shown: String = numbers.iter().map(|number| format!("\t{number}")).collect();
            format!("want\t{}{shown}\n", numbers.len())
        }
    }
}

// ---- instructions

const RECORD: usize = 132;

fn bytes(text: &Text) -> &[u8] {
    match text {
        Text::Log(bytes, _) | Text::Wanted(bytes) => bytes,
    }
}

fn two(number: usize) -> [u8; 2] {
    (number as u16).to_be_bytes()
}

/// What makes the texts, each from nothing or out of the one before it, as it
/// is shorter.
fn instructions(set: &[Text]) -> Vec<u8> {
    let mut made = Vec::new();
    let mut before: &[u8] = &[];
    for text in set {
        let own = bytes(text);
        let from_nothing = pieces(own);
        let shared = own.iter().zip(before).take_while(|(one, other)| one == other).count();
        let mut out_of_it = vec![5, 0, 0];
        if shared < before.len() {
            let [high, low] = two(before.len() - shared);
            out_of_it.extend([3, high, low]);
        }
        out_of_it.extend(pieces(&own[shared..]));
        made.extend(if from_nothing.len() <= out_of_it.len() { from_nothing } else { out_of_it });
        match text {
            Text::Log(_, frozen) => {
                if *frozen > 0 {
                    let [high, low] = two(*frozen);
                    made.extend([7, high, low]);
                }
                made.extend([0, 0, 0]);
            }
            Text::Wanted(_) => made.extend([6, 0, 0]),
        }
        before = own;
    }
    made
}

/// What makes these bytes: whole lines where they are some, else runs of one
/// byte.
fn pieces(mut rest: &[u8]) -> Vec<u8> {
    let mut made = Vec::new();
    while let [first, ..] = rest {
        let (piece, length) = heading(rest).or_else(|| change(rest)).unwrap_or_else(|| {
            let run = rest.iter().take(255).take_while(|byte| *byte == first).count();
            ([4, *first, run as u8], run)
        });
        made.extend(piece);
        rest = &rest[length..];
    }
    made
}

fn heading(rest: &[u8]) -> Option<([u8; 3], usize)> {
    let end = rest.iter().position(|byte| *byte == b'\n')?;
    let digits = rest[..end].strip_prefix(b"C\t")?;
    let number: usize = std::str::from_utf8(digits).ok()?.parse().ok()?;
    let whole = number < 65_536 && number.to_string().as_bytes() == digits;
    let [high, low] = two(number);
    whole.then_some(([2, high, low], end + 1))
}

fn change(rest: &[u8]) -> Option<([u8; 3], usize)> {
    let [letter, b'\t', byte, ..] = *rest else { return None };
    let record = rest.get(2..2 + RECORD)?;
    let whole = rest.get(2 + RECORD) == Some(&b'\n') && record.iter().all(|other| *other == byte);
    whole.then_some(([1, letter, byte], RECORD + 3))
}

/// The texts that instructions make.
pub fn made_by(instructions: &[u8]) -> Vec<Text> {
    let mut texts: Vec<Text> = Vec::new();
    let (mut made, mut frozen) = (Vec::new(), 0);
    for instruction in instructions.chunks(3) {
        let [op, x, y] = *instruction else { panic!("a piece of an instruction") };
        let number = usize::from(x) * 256 + usize::from(y);
        match op {
            0 => texts.push(Text::Log(std::mem::take(&mut made), std::mem::take(&mut frozen))),
            1 => made.extend(line(x, &[y; RECORD])),
            2 => made.extend(format!("C\t{number}\n").into_bytes()),
            3 => made.truncate(made.len() - number),
            4 => made.extend(vec![x; usize::from(y)]),
            5 => made = texts.last().map(|text| bytes(text).to_vec()).unwrap_or_default(),
            6 => texts.push(Text::Wanted(std::mem::take(&mut made))),
            7 => frozen = number,
            _ => panic!("no such instruction: {instruction:?}"),
        }
    }
    texts
}

// ---- the set

fn line(letter: u8, record: &[u8]) -> Vec<u8> {
    [&[letter, b'\t'], record, b"\n"].concat()
}

fn full(letter: u8, byte: u8) -> Vec<u8> {
    line(letter, &[byte; RECORD])
}

fn headings(numbers: impl IntoIterator<Item = usize>) -> Vec<u8> {
    numbers.into_iter().flat_map(|number| format!("C\t{number}\n").into_bytes()).collect()
}

pub fn all() -> Vec<Text> {
    let mut set = Vec::new();
    good(&mut set);
    cut(&mut set);
    bad_lines(&mut set);
    bad_records(&mut set);
    limits(&mut set);
    damaged(&mut set);
    lists(&mut set);
    set
}

fn add(set: &mut Vec<Text>, log: impl AsRef<[u8]>) {
    beside(set, 0, log);
}

fn beside(set: &mut Vec<Text>, frozen: usize, log: impl AsRef<[u8]>) {
    set.push(Text::Log(log.as_ref().to_vec(), frozen));
}

/// Empty logs and corrections, and lines in every order.
fn good(set: &mut Vec<Text>) {
    add(set, "");
    for corrections in [1, 2, 9, 10, 11, 99, 100, 101, 200] {
        add(set, headings(1..=corrections));
    }
    let lines = [full(b'D', b'a'), full(b'A', b'b'), headings([2]), full(b'A', b'c'), full(b'D', b'd')];
    for count in 0..=lines.len() {
        add(set, [headings([1]), lines[..count].concat()].concat());
    }
    add(set, [headings(1..=120), full(b'A', b'x'), headings([121]), full(b'D', b'x')].concat());
}

/// Logs that stop at every byte of each kind of line.
fn cut(set: &mut Vec<Text>) {
    for front in [0, 9, 99] {
        let before = headings(1..=front);
        let next = headings([front + 1]);
        for length in 0..next.len() {
            add(set, [before.clone(), next[..length].to_vec()].concat());
        }
    }
    for letter in [b'D', b'A'] {
        let change = full(letter, b'r');
        for length in 0..change.len() {
            add(set, [headings([1]), change[..length].to_vec()].concat());
        }
    }
}

/// Lines that are none: numbers, letters, tabs and ends that are wrong.
fn bad_lines(set: &mut Vec<Text>) {
    for number in ["01", "0", "2", "11", "1 ", " 1", "+1", "-1", "1.0", "", "x", "one", "\t1", "1\t"] {
        add(set, format!("C\t{number}\n"));
    }
    for number in ["1", "3", "02", "20", "22", "2x", "2"] {
        add(set, format!("C\t1\nC\t{number}\nC\t9\n"));
    }
    for number in ["9", "11", "010", "1", "100", "10"] {
        add(set, [headings(1..=9), format!("C\t{number}\n").into_bytes()].concat());
    }
    for number in ["99", "101", "0100", "10", "1000", "100"] {
        add(set, [headings(1..=99), format!("C\t{number}\n").into_bytes()].concat());
    }
    for text in
        ["\n", "C", "C1\n", "C 1\n", "c\t1\n", "\tC\t1\n", "C\t1\r\n", "C\t1\n\n", "#\n", "B\t1\n", "CC\t1\n"]
    {
        add(set, text);
    }
    for byte in 0..=255 {
        add(set, [byte]);
        add(set, [headings([1]), vec![byte, b'\t']].concat());
    }
    for letter in [b'D', b'A'] {
        add(set, full(letter, b'r'));
        add(set, [full(letter, b'r'), headings([1])].concat());
        add(set, [headings([1]), vec![letter, b' '], vec![b'r'; RECORD], vec![b'\n']].concat());
        add(set, [headings([1]), vec![letter], vec![b'r'; RECORD], vec![b'\n']].concat());
        add(set, [headings([1]), vec![letter, b'\t', b'\t'], vec![b'r'; RECORD], vec![b'\n']].concat());
        add(set, [headings([1]), full(letter, b'r'), vec![b'\n']].concat());
    }
}

/// Records of other lengths, and bytes at the limits in every tenth column.
fn bad_records(set: &mut Vec<Text>) {
    for letter in [b'D', b'A'] {
        for length in [0, 1, 131, 132, 133, 134, 264] {
            add(set, [headings([1]), line(letter, &vec![b'r'; length])].concat());
        }
        for column in (0..RECORD).step_by(10).chain([RECORD - 1]) {
            for byte in [0, 9, 10, 13, 31, 32, 126, 127, 128, 255] {
                let mut record = [b'r'; RECORD];
                record[column] = byte;
                add(set, [headings([1]), line(letter, &record), headings([2])].concat());
            }
        }
        for byte in [31, 32, 126, 127] {
            add(set, [headings([1]), full(letter, byte)].concat());
        }
    }
}

/// 200 and 201 corrections, 480 and 481 records, 60,000 and 60,001 bytes, and
/// what comes first where two of them are met.
fn limits(set: &mut Vec<Text>) {
    for corrections in [199, 200, 201, 202] {
        add(set, headings(1..=corrections));
        add(set, [headings(1..=corrections), b"C\t201".to_vec()].concat());
        add(set, [headings(1..=corrections), b"C\t20".to_vec()].concat());
        add(set, [headings(1..=corrections), full(b'D', b'r')].concat());
    }
    let puts = |count| [headings([1]), full(b'A', b'r').repeat(count)].concat();
    for (frozen, count) in
        [(480, 0), (479, 1), (480, 1), (470, 10), (470, 11), (481, 0), (481, 1), (60_000, 1)]
    {
        beside(set, frozen, puts(count));
        beside(set, frozen, [puts(count), full(b'D', b'r')].concat());
        beside(set, frozen, [puts(count), b"A\t".to_vec()].concat());
        beside(set, frozen, [puts(count), b"E".to_vec()].concat());
    }
    beside(set, 480, [headings([1]), full(b'D', b'r'), full(b'A', b'r')].concat());
    beside(set, 36, puts(444));
    beside(set, 37, puts(444));
    beside(set, 480, [headings(1..=200), full(b'A', b'r'), headings([201])].concat());
    let most = [headings([1]), full(b'D', b'r').repeat(444)].concat();
    let filled = |length: usize| {
        let mut log = most.clone();
        log.extend(headings(2..=9));
        log.resize(length, b'C');
        log
    };
    for length in [59_999, 60_000, 60_001, 60_002, 65_000] {
        add(set, filled(length));
        add(set, vec![b'x'; length]);
    }
    add(set, &most);
    let exact = [headings([1]), full(b'D', b'r').repeat(440), headings(2..=118)].concat();
    add(set, &exact);
    add(set, [exact, vec![b'C']].concat());
}

/// Good logs with one byte changed, taken out or put in at a random place.
fn damaged(set: &mut Vec<Text>) {
    let mut dice = Dice(0x4c4f_475f_4c49_4e45);
    let log =
        [headings([1]), full(b'D', b'a'), full(b'A', b'b'), headings([2]), full(b'A', b'c'), headings([3])]
            .concat();
    for _ in 0..150 {
        let mut text = log.clone();
        let at = dice.below(text.len());
        let byte = [0, 9, 10, 31, 32, 48, 49, 50, 65, 67, 68, 126, 127, 255][dice.below(14)];
        match dice.below(3) {
            0 => text[at] = byte,
            1 => drop(text.remove(at)),
            _ => text.insert(at, byte),
        }
        add(set, text);
    }
}

/// Wanted lists: empty, long and unfinished lines, 200 and 201 lines, 800 and
/// 801 bytes.
fn lists(set: &mut Vec<Text>) {
    let mut list = |text: &[u8]| set.push(Text::Wanted(text.to_vec()));
    for text in [
        "",
        "\n",
        "\n\n",
        "1\n",
        "1",
        "1\n2",
        "1\n2\n",
        "12\n",
        "123\n",
        "1234\n",
        "001\n",
        "0001\n",
        "000\n",
        "0\n",
        "200\n",
        "201\n",
        "999\n",
        " 1\n",
        "1 \n",
        "1\r\n",
        "+1\n",
        "-1\n",
        "1.\n",
        "a\n",
        "1a\n",
        "1\t2\n",
        "/\n",
        ":\n",
        "0\n9\n",
        "5\n\n5\n",
        "5\n5\n5",
        "12345678901234567890\n7\n",
    ] {
        list(text.as_bytes());
    }
    for byte in 0..=255 {
        list(&[byte, b'\n']);
        list(&[b'1', byte, b'2', b'\n', b'3', b'\n']);
    }
    for count in [199, 200, 201, 202, 400] {
        list(&b"7\n".repeat(count));
        list(&b"\n".repeat(count));
        list(&[b"7\n".repeat(count), b"7".to_vec()].concat());
    }
    for length in [799, 800, 801] {
        list(&b"123\n".repeat(201)[..length]);
        list(&vec![b'1'; length]);
        list(&vec![b'\n'; length]);
    }
}
