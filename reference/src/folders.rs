//! The stored set of folders, most of them odd in one way, and what the four
//! programs print of each.
//!
//! What is read of the folders is kept one after the other: of each the lengths
//! of the frozen file, the log and the wanted list, four bytes each and the
//! highest first, and then the three.

use std::collections::HashSet;
use std::os::unix::fs::{symlink, PermissionsExt};
use std::path::Path;
use std::{fs, io};

use crate::answers::{check_answer, newfile_answer, pick_answer, why_answer, Inputs, NAMES};
use crate::file::LINE;
use crate::files::changed;
use crate::pick::{new_file, ROOM};
use crate::pick_vectors::sum;
use crate::picks::{
    all as all_picks, continuation, file, full_file, headings, largest, leg, leg_of, log, opening, out, put,
    renewed, replaced, Case, Correction, Record,
};
use crate::Stored;

/// What stands in a folder under the name of one of its files.
#[derive(Clone)]
pub enum Entry {
    Missing,
    Holds(Vec<u8>),
    /// These bytes, in a file that nobody may read.
    Unreadable(Vec<u8>),
    Folder,
    /// A link to a name that is not there.
    LinkToNothing,
}

impl Entry {
    fn read(&self) -> &[u8] {
        match self {
            Entry::Holds(bytes) => bytes,
            _ => b"",
        }
    }

    fn make(&self, path: &Path) -> io::Result<()> {
        match self {
            Entry::Missing => Ok(()),
            Entry::Holds(bytes) => fs::write(path, bytes),
            Entry::Unreadable(bytes) => {
                fs::write(path, bytes)?;
                fs::set_permissions(path, fs::Permissions::from_mode(0))
            }
            Entry::Folder => fs::create_dir(path),
            Entry::LinkToNothing => symlink("nothing", path),
        }
    }
}

pub struct Folder {
    /// What is odd about it.
    pub name: String,
    pub entries: [Entry; 3],
}

impl Folder {
    pub fn inputs(&self) -> Inputs {
        Inputs::of([self.entries[0].read(), self.entries[1].read(), self.entries[2].read()])
    }
}

/// The stored set of folders, and the answers to it and to the examples.
pub fn stored_files() -> Vec<Stored> {
    let inputs: Vec<Inputs> = all().iter().map(Folder::inputs).collect();
    let mut stored = vec![
        ("../crates/vectors_answers/data/folders.bin", inputs.iter().flat_map(packed).collect()),
        (
            "../crates/vectors_answers/stdout",
            (1..).zip(&inputs).flat_map(|(n, one)| answer(n, one)).collect(),
        ),
    ];
    let [pqr, left_behind, by_cycle_date] = examples().map(|example| example.inputs());
    stored.extend([
        ("../examples/pqr/pick.out", pick_answer(&pqr)),
        ("../examples/pqr/newfile.out", newfile_answer(&pqr)),
        ("../examples/pqr/check.out", check_answer(&pqr)),
        ("../examples/pqr/why.out", why_answer(&pqr)),
        ("../examples/left-behind/pick.out", pick_answer(&left_behind)),
        ("../examples/left-behind/newfile.out", newfile_answer(&left_behind)),
        ("../examples/left-behind/check.out", check_answer(&left_behind)),
        ("../examples/left-behind/why.out", why_answer(&left_behind)),
        ("../examples/left-behind/by-cycle-date/check.out", check_answer(&by_cycle_date)),
        ("../examples/left-behind/by-cycle-date/why.out", why_answer(&by_cycle_date)),
    ]);
    stored
}

// ---- how they are stored, and the answers

/// A folder as it is stored.
pub fn packed(inputs: &Inputs) -> Vec<u8> {
    let Inputs { frozen, log, want } = inputs;
    let length = |bytes: &Vec<u8>| u32::try_from(bytes.len()).expect("a length of four bytes").to_be_bytes();
    [&length(frozen), &length(log), &length(want), &frozen[..], log, want].concat()
}

/// The folders that are stored so.
pub fn unpacked(mut bytes: &[u8]) -> Vec<Inputs> {
    let mut folders = Vec::new();
    while !bytes.is_empty() {
        let length =
            |at: usize| u32::from_be_bytes(bytes[at..at + 4].try_into().expect("four bytes")) as usize;
        let (frozen, rest) = bytes[12..].split_at(length(0));
        let (log, rest) = rest.split_at(length(4));
        let (want, rest) = rest.split_at(length(8));
        folders.push(Inputs { frozen: frozen.to_vec(), log: log.to_vec(), want: want.to_vec() });
        bytes = rest;
    }
    folders
}

/// The longest new file that is stored as it is.
const LONGEST_SHOWN: usize = 2_000;

/// What the four programs print of one folder; of a long new file its length and
/// its check sum.
pub fn answer(number: usize, inputs: &Inputs) -> Vec<u8> {
    let made = newfile_answer(inputs);
    let shown = match made.len() {
        0..=LONGEST_SHOWN => made,
        length => format!("bytes\t{length}\t{}\n", sum(&made)).into_bytes(),
    };
    let first = format!("folder\t{number}\n").into_bytes();
    [first, pick_answer(inputs), shown, check_answer(inputs), why_answer(inputs)].concat()
}

/// Makes the folders in a place, each by its number; beside them what is
/// expected of each program, and a list: the number of each folder, whether it
/// has a file that nobody may read, and its name.
pub fn write(place: &Path) -> io::Result<()> {
    let mut list = String::new();
    for (number, folder) in (1_usize..).zip(all()) {
        let (made, expected) =
            (place.join(format!("folders/{number}")), place.join(format!("expected/{number}")));
        fs::create_dir_all(&made)?;
        fs::create_dir_all(&expected)?;
        for (entry, name) in folder.entries.iter().zip(NAMES) {
            entry.make(&made.join(name))?;
        }
        let inputs = folder.inputs();
        fs::write(expected.join("pick"), pick_answer(&inputs))?;
        fs::write(expected.join("newfile"), newfile_answer(&inputs))?;
        fs::write(expected.join("check"), check_answer(&inputs))?;
        fs::write(expected.join("why"), why_answer(&inputs))?;
        let unreadable = folder.entries.iter().any(|entry| matches!(entry, Entry::Unreadable(_)));
        let readable = if unreadable { "unreadable" } else { "readable" };
        list += &format!("{number}\t{readable}\t{}\n", folder.name);
    }
    fs::write(place.join("list"), list)
}

// ---- the set

/// All folders in order.
pub fn all() -> Vec<Folder> {
    let mut folders: Vec<Folder> = examples().into();
    folders.extend(not_read());
    folders.extend(long_files());
    folders.extend(bytes_and_line_ends());
    folders.extend(lists());
    folders.extend(refused());
    folders.extend(cycles());
    folders.extend(large());
    folders.extend(bad_bytes());
    folders.extend(reasons());
    folders.extend(unfit_lines());
    folders.extend(refused_routes());
    folders.extend(refused_records());
    folders
}

fn folder(name: &str, frozen: &[u8], log: &[u8], want: &[u8]) -> Folder {
    let entries = [frozen, log, want].map(|bytes| Entry::Holds(bytes.to_vec()));
    Folder { name: name.to_string(), entries }
}

/// The folders in examples/: paper 01's own case, the leg that was left behind,
/// and the file that a choice by cycle date makes of it.
pub fn examples() -> [Folder; 3] {
    macro_rules! example {
        ($file:literal) => {
            include_bytes!(concat!("../../examples/", $file))
        };
    }
    let by_cycle_date = Entry::Holds(example!("left-behind/by-cycle-date/frozen.txt").to_vec());
    [
        folder("examples/pqr", example!("pqr/frozen.txt"), example!("pqr/log.txt"), example!("pqr/want.txt")),
        folder(
            "examples/left-behind",
            example!("left-behind/frozen.txt"),
            example!("left-behind/log.txt"),
            example!("left-behind/want.txt"),
        ),
        Folder {
            name: "examples/left-behind/by-cycle-date".to_string(),
            entries: [by_cycle_date, Entry::Missing, Entry::Missing],
        },
    ]
}

/// The files of paper 01's own case.
fn pqr() -> [Vec<u8>; 3] {
    let Inputs { frozen, log, want } = examples()[0].inputs();
    [frozen, log, want]
}

/// Files that are missing, empty or can't be read, in all combinations or some.
/// In a set of files the first is 1, the second 2 and the third 4.
fn not_read() -> Vec<Folder> {
    let mut folders = Vec::new();
    let mut without = |what: &str, instead: &dyn Fn(Vec<u8>) -> Entry, sets: &[usize]| {
        for set in sets {
            let has = |file: &usize| set >> file & 1 == 1;
            let names: Vec<&str> = (0..3).filter(has).map(|file| NAMES[file]).collect();
            let mut entries = pqr().map(Entry::Holds);
            for file in (0..3).filter(has) {
                entries[file] = instead(entries[file].read().to_vec());
            }
            folders.push(Folder { name: format!("{what}: {}", names.join(", ")), entries });
        }
    };
    without("missing", &|_| Entry::Missing, &[1, 2, 3, 4, 5, 6, 7]);
    without("empty", &|_| Entry::Holds(vec![]), &[1, 2, 4, 7]);
    without("a folder", &|_| Entry::Folder, &[1, 2, 4, 7]);
    without("a link to nothing", &|_| Entry::LinkToNothing, &[1, 2, 4]);
    without("unreadable", &Entry::Unreadable, &[1, 2, 4, 7]);
    folders
}

/// Files at their limits, one byte past them, and further.
fn long_files() -> Vec<Folder> {
    let [frozen, log_of_pqr, want] = pqr();
    let full = file(&full_file());
    // 440 lines and 118 headings.
    let long: Vec<_> = renewed("P", 10, 0, 0).into_iter().cycle().take(440).collect();
    let one_leg = file(&[leg("P", 10, 0)]);
    let longest = [log(&[long]), headings(2..=118)].concat();
    let more = |bytes: &[u8], count: usize| [bytes, &vec![b'x'; count]].concat();
    vec![
        folder("480 records, 63,840 bytes", &full, b"", b""),
        folder("63,840 bytes that are no records", &vec![b'x'; ROOM], b"", b""),
        folder("480 records and a byte", &more(&full, 1), b"", b""),
        folder("480 records and 10,000 bytes", &more(&full, 10_000), &log_of_pqr, &want),
        folder("a log of 60,000 bytes", &one_leg, &longest, b"118\n1\n"),
        folder("a log of 60,001 bytes", &one_leg, &more(&longest, 1), b"118\n1\n"),
        folder("a log of 70,000 bytes", &frozen, &vec![b'x'; 70_000], &want),
        folder("a list of 800 bytes, 200 lines", &frozen, &log_of_pqr, &b"005\n".repeat(200)),
        folder("a list of 801 bytes", &frozen, &log_of_pqr, &[&b"005\n".repeat(200)[..], b"5"].concat()),
        folder("a list of 804 bytes, 201 lines", &frozen, &log_of_pqr, &b"005\n".repeat(201)),
        folder("a list of 1,000 bytes, 500 lines", &frozen, &log_of_pqr, &b"5\n".repeat(500)),
        folder("a list of 801 digits", &frozen, &log_of_pqr, &[b'5'; 801]),
    ]
}

/// Bytes that no text has, line ends that are missing or of another kind.
fn bytes_and_line_ends() -> Vec<Folder> {
    let [frozen, log, want] = pqr();
    let every_byte: Vec<u8> = (0..=255).collect();
    let zeros = vec![0; 399];
    let cut = |bytes: &[u8]| bytes[..bytes.len() - 1].to_vec();
    let with_returns = |bytes: &[u8]| -> Vec<u8> {
        let lines = bytes.split_inclusive(|byte| *byte == b'\n');
        lines.flat_map(|line| [&line[..line.len() - 1], b"\r\n"].concat()).collect()
    };
    vec![
        folder("every byte: frozen.txt", &every_byte, &log, &want),
        folder("every byte: log.txt", &frozen, &every_byte, &want),
        folder("every byte: want.txt", &frozen, &log, &every_byte),
        folder("zeros: frozen.txt", &zeros, &log, &want),
        folder("zeros: log.txt", &frozen, &zeros, &want),
        folder("zeros: want.txt", &frozen, &log, &zeros),
        folder("no last line feed: frozen.txt", &cut(&frozen), &log, &want),
        folder("no last line feed: log.txt", &frozen, &cut(&log), &want),
        folder("no last line feed: want.txt", &frozen, &log, &cut(&want)),
        folder("carriage returns: frozen.txt", &with_returns(&frozen), &log, &want),
        folder("carriage returns: log.txt", &frozen, &with_returns(&log), &want),
        folder("carriage returns: want.txt", &frozen, &log, &with_returns(&want)),
        folder("a line feed alone: frozen.txt", b"\n", &log, &want),
        folder("a line feed alone: log.txt", &frozen, b"\n", &want),
        folder("a line feed alone: want.txt", &frozen, &log, b"\n"),
        folder("a line feed too many: frozen.txt", &[&frozen[..], b"\n"].concat(), &log, &want),
        folder("a line feed too many: log.txt", &frozen, &[&log[..], b"\n"].concat(), &want),
        folder("a line feed too many: want.txt", &frozen, &log, b"5\n\n"),
        folder("a byte order mark: want.txt", &frozen, &log, b"\xef\xbb\xbf5\n"),
    ]
}

/// Lists of wanted corrections.
fn lists() -> Vec<Folder> {
    let [frozen, log, _] = pqr();
    let texts = [
        "1\n2\n3\n4\n5\n",
        "4\n4\n",
        "5\n1\n3\n5\n",
        "005\n",
        "05\n4\n",
        "0005\n",
        "\n5\n",
        "5\n\n4\n",
        "0\n",
        "000\n",
        "6\n",
        "5\n6\n",
        "999\n",
        "261\n",
        "+5\n",
        "-5\n",
        " 5\n",
        "5 \n",
        "5\t\n",
        "5 4\n",
        "5,4\n",
        "5.\n",
        "five\n",
        "0x5\n",
        "4\n5",
    ];
    let shown = |text: &str| format!("the list {}", text.escape_default());
    let mut folders: Vec<Folder> =
        texts.iter().map(|text| folder(&shown(text), &frozen, &log, text.as_bytes())).collect();
    folders.extend([
        folder("a list of 200 lines", &frozen, &log, &b"5\n".repeat(200)),
        folder("a list of 201 lines", &frozen, &log, &b"5\n".repeat(201)),
        folder("a list of 200 lines and a tail", &frozen, &log, &[&b"5\n".repeat(200)[..], b"5"].concat()),
        folder(
            "a list of 200 lines, the last bad",
            &frozen,
            &log,
            &[&b"5\n".repeat(199)[..], b"x\n"].concat(),
        ),
    ]);
    folders
}

/// A list with these numbers.
pub(crate) fn listed(wanted: &[u32]) -> Vec<u8> {
    wanted.iter().flat_map(|number| format!("{number}\n").into_bytes()).collect()
}

/// The first of the stored picks with each refusal, of 7, 8 and 11 with each
/// column, that a program can meet: no program lends a buffer that is too short.
fn refused() -> Vec<Folder> {
    let mut met = HashSet::new();
    let mut folders = Vec::new();
    for Case { frozen, log, wanted, room } in all_picks() {
        let as_text = wanted.len() <= 200 && wanted.iter().all(|number| *number <= 999);
        let Err(refusal) = new_file(&frozen, &log, &wanted, ROOM) else { continue };
        let kind = match refusal.number {
            7 | 8 | 11 => (refusal.number, refusal.column),
            number => (number, 0),
        };
        // A log that is too long and a limit of records or corrections have folders of their own.
        if as_text && room == ROOM && refusal.number != 13 && met.insert(kind) {
            let name = format!("refused by {}, {}, {}", refusal.number, refusal.place, refusal.column);
            folders.push(folder(&name, &frozen, &log, &listed(&wanted)));
        }
    }
    folders
}

/// Paper 01's own case with other cycles: one that its year has, throughout, and
/// one that its year does not have, in the frozen file or in what is put in.
fn cycles() -> Vec<Folder> {
    let [frozen, log, want] = pqr();
    // In each line that begins so and has a record.
    let with_cycle = |cycle: &str, front: &[u8], bytes: &[u8]| -> Vec<u8> {
        let lines = bytes.split_inclusive(|byte| *byte == b'\n').map(<[u8]>::to_vec);
        let changed = lines.map(|mut line| {
            let end = line.len() - 1;
            if line.starts_with(front) && line.len() >= LINE {
                line[end - 4..end].copy_from_slice(cycle.as_bytes());
            }
            line
        });
        changed.flatten().collect()
    };
    let of_2020 = [&frozen, &log].map(|bytes| with_cycle("2014", b"", bytes));
    vec![
        folder("cycle 2014", &of_2020[0], &of_2020[1], &want),
        folder("cycle 2114: frozen.txt", &with_cycle("2114", b"", &frozen), &log, &want),
        folder("cycle 2114: log.txt", &frozen, &with_cycle("2114", b"A", &log), &want),
    ]
}

/// As many corrections and records as there may be, and one more.
fn large() -> Vec<Folder> {
    let [frozen, ..] = pqr();
    let full = full_file();
    let one_more = log(&[vec![put(&leg("Z", 10, 0))]]);
    let Case { frozen: largest, log: lines, wanted, .. } = largest().swap_remove(0);
    vec![
        folder("200 corrections", &frozen, &headings(1..=200), b"200\n"),
        folder("201 corrections", &frozen, &headings(1..=201), b"200\n"),
        folder("479 records and one put in", &file(&full[..479]), &one_more, b"1\n"),
        folder("480 records and one put in", &file(&full), &one_more, b"1\n"),
        folder("the largest pick", &largest, &lines, &listed(&wanted)),
    ]
}

/// Paper 01's own case with an altitude that is a digit short, in the second
/// record of the frozen file or in the first that is put in.
fn bad_bytes() -> Vec<Folder> {
    let [frozen, log, want] = pqr();
    // Behind a heading, a D line, an A and a tab.
    let put_in = "C\t1\n".len() + "D\t".len() + LINE + "A\t".len();
    let short = |bytes: &[u8], record: usize| changed(bytes, &[(record + 85, "1500 ")]);
    vec![
        folder("1500 and a blank: frozen.txt", &short(&frozen, LINE), &log, &want),
        folder("1500 and a blank: log.txt", &frozen, &short(&log, put_in), &want),
    ]
}

// ---- what there is to explain

/// Corrections that are taken for another, by any of its lines.
fn reasons() -> Vec<Folder> {
    let frozen = file(&["P", "Q", "R"].map(|route| leg(route, 10, 0)));
    let of = |name: &str, corrections: &[Correction], wanted: &[u32]| {
        folder(name, &frozen, &log(corrections), &listed(wanted))
    };
    let on = |routes: &[&str], from: usize| -> Correction {
        routes.iter().flat_map(|route| renewed(route, 10, from, from + 1)).collect()
    };
    let by_both = [on(&["P"], 0), on(&["Q"], 0), on(&["P", "Q"], 1)];
    let fork = [on(&["P", "Q"], 0), on(&["P"], 1), on(&["Q"], 1)];
    // The third relies on the first by Q, and by way of the second.
    let detour = [on(&["P", "Q"], 0), on(&["P"], 1), [on(&["Q"], 1), on(&["P"], 2)].concat()];
    let chain: Vec<Correction> = (0..200).map(|step| renewed("P", 10, step % 5, (step + 1) % 5)).collect();
    // A route that no record has, put in and taken out again. Some of its bytes mean something in a shell, a
    // format or a graph.
    let odd = changed(&[b'~'; LINE - 1], &[(1, "$'`*%s"), (7, "<{|>"), (14, "\\N\"&#;"), (21, "\"x &\\")]);
    let passing = vec![put(&odd), out(&odd)];
    vec![
        of("taken for the first line, and for the third", &by_both, &[3]),
        of("taken for two routes, the later one first", &[on(&["P", "Q"], 0), on(&["Q", "P"], 1)], &[2]),
        of("taken for two", &fork, &[3, 2]),
        of("taken for the second of two, the other left out", &fork, &[3]),
        of("wanted, and relied on", &fork, &[1, 2]),
        of("taken for a line that only takes out", &[on(&["R"], 0), vec![out(&leg("R", 10, 1))]], &[2]),
        of("taken for one that is taken for another", &detour, &[3]),
        of("taken for a route of odd bytes", &[passing.clone(), on(&["P"], 0), passing], &[3]),
        of("200 corrections, each taken for the next", &chain, &[200]),
    ]
}

/// Corrections with a line that can't be applied, behind lines that can.
fn unfit_lines() -> Vec<Folder> {
    let frozen = file(&["P", "Q", "R"].map(|route| leg(route, 10, 0)));
    let of = |name: &str, last: Correction, wanted: &[u32]| {
        let corrections = [renewed("P", 10, 0, 1), vec![], last, renewed("R", 10, 0, 1)];
        folder(name, &frozen, &log(&corrections), &listed(wanted))
    };
    let then = |line| [renewed("Q", 10, 0, 1), vec![line, out(&leg("N", 10, 0))]].concat();
    vec![
        of("a D line that finds no such record", then(out(&leg("P", 10, 0))), &[1]),
        of("an A line that finds its place taken", then(put(&leg("P", 10, 2))), &[4]),
        of("a record taken out twice", then(out(&leg("Q", 10, 0))), &[]),
        of("a line that can't be applied, and no such correction", then(out(&leg("P", 10, 0))), &[1, 5]),
    ]
}

/// Corrections after which a route is refused, at a record of the frozen file, at
/// one that was put in, or behind its last one.
fn refused_routes() -> Vec<Folder> {
    let climb = [leg_of("P", 10, 0, "CA"), leg_of("P", 20, 0, "CF"), leg_of("P", 30, 0, "TF")];
    let noted =
        [opening("Q", 10, 0), continuation("Q", 10, '2', 0), leg_of("Q", 20, 0, "CI"), leg("Q", 30, 0)];
    let frozen = file(&[&climb[..], &noted, &[leg("R", 10, 0)]].concat());
    let of = |name: &str, correction: Correction| {
        let corrections = [renewed("R", 10, 0, 1), correction];
        folder(&format!("refused route: {name}"), &frozen, &log(&corrections), b"1\n")
    };
    let without_course = |route: &str| put(&changed(&leg(route, 40, 0), &[(71, "    ")]));
    let other_climb = changed(&climb[0], &[(124, "00001")]);
    let beside = changed(&leg("P", 20, 1), &[(39, "1")]);
    vec![
        of("3, at a record put in", vec![put(&changed(&leg("P", 40, 0), &[(85, "1500 ")]))]),
        of("3, with every column bad", vec![put(&vec![b'~'; LINE - 1])]),
        of("4, at a record put in", vec![put(&changed(&leg("P", 15, 0), &[(35, "  ")]))]),
        of("5, at a record put in", vec![without_course("P")]),
        of("6, at a frozen leg", vec![out(&noted[1])]),
        of("6, at a frozen continuation", vec![out(&noted[0])]),
        of("6, behind the last record", vec![put(&opening("P", 40, 0))]),
        of("6, behind the one record", vec![put(&opening("S", 10, 0))]),
        of("7, at a record put in", vec![put(&beside), put(&continuation("P", 20, '2', 1))]),
        of("8, at a frozen leg whose leg before is taken out", vec![out(&climb[1])]),
        of("8, at a frozen leg that becomes the last", vec![out(&noted[3])]),
        of("8, at a leg that is replaced", replaced(&climb[1], &leg_of("P", 20, 1, "VA"))),
        of(
            "the second one that is touched",
            [replaced(&climb[0], &other_climb), vec![without_course("Q")]].concat(),
        ),
        of(
            "the second one that is touched, on the first line",
            [vec![without_course("Q")], replaced(&climb[0], &other_climb)].concat(),
        ),
        of("the first of two, on the last line", vec![without_course("R"), out(&noted[1]), out(&climb[1])]),
    ]
}

/// Frozen files that are refused at a record, or where one is missing.
fn refused_records() -> Vec<Folder> {
    let [_, log, want] = pqr();
    let legs = [leg_of("P", 10, 0, "CA"), leg_of("P", 20, 0, "CF"), leg_of("Q", 10, 0, "CA")];
    let of = |name: &str, frozen: &[u8]| folder(&format!("refused record: {name}"), frozen, &log, &want);
    let with = |at: usize, record: Record| {
        let mut records = legs.to_vec();
        records[at] = record;
        file(&records)
    };
    let whole = file(&legs);
    let mut no_line_feed = whole.clone();
    no_line_feed[2 * LINE - 1] = 0;
    vec![
        of("1, cut in its middle", &whole[..2 * LINE + 70]),
        of("1, a byte alone", &whole[..2 * LINE + 1]),
        of("1, its line feed missing", &whole[..3 * LINE - 1]),
        of("1, another byte for its line feed", &no_line_feed),
        of("3, with every byte below 132", &[&whole[..LINE], &(0..132).collect::<Vec<u8>>(), b"\n"].concat()),
        of("4", &with(1, changed(&legs[1], &[(35, "  ")]))),
        of("5", &with(1, changed(&legs[1], &[(71, "    ")]))),
        of("6, a leg in place of a continuation", &with(1, opening("P", 20, 0))),
        of("6, behind the last one", &with(2, opening("Q", 10, 0))),
        of("7, the route", &with(2, leg("N", 10, 0))),
        of("7, the sequence number", &with(1, leg("P", 10, 0))),
        of("8, behind another", &with(1, leg_of("P", 20, 0, "TF"))),
        of("8, the last of its route", &with(1, leg_of("P", 20, 0, "VI"))),
    ]
}
