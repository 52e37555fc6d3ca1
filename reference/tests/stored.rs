//! All stored files are what the program makes, the four programs are to print
//! what it answers to their own data, and the set of records keeps to its size.

use std::fs;
use std::path::Path;

use reference::answers::{check_answer, newfile_answer, pick_answer, why_answer, Inputs, NAMES};
use reference::{cases, read, stored_files, write};

#[test]
fn the_stored_files_are_what_the_program_makes() {
    for (name, made) in stored_files() {
        let path = Path::new(env!("CARGO_MANIFEST_DIR")).join(name);
        let stored = fs::read(path).unwrap_or_default();
        assert!(stored == made, "{name} is not what the program makes: run `cargo run --offline`");
    }
}

/// A program of the repository, and what it prints of a folder.
type Program = (&'static str, fn(&Inputs) -> Vec<u8>);

#[test]
fn the_programs_are_to_print_what_this_one_answers() {
    let root = Path::new(env!("CARGO_MANIFEST_DIR")).join("..");
    let programs: [Program; 4] = [
        ("pick", pick_answer),
        ("newfile", newfile_answer),
        ("check_log", check_answer),
        ("why", why_answer),
    ];
    for (name, answer) in programs {
        let folder = root.join("crates").join(name);
        let [frozen, log, want] =
            NAMES.map(|file| fs::read(folder.join("data").join(file)).unwrap_or_default());
        let stored = fs::read(folder.join("stdout")).unwrap_or_default();
        assert!(stored == answer(&Inputs::of([&frozen, &log, &want])), "crates/{name}/stdout");
    }
}

#[test]
fn the_set_keeps_its_limits() {
    let set = cases::all();
    assert!(set.len() <= 440, "{} cases", set.len());
    assert!(cases::stored(&set).len() <= 60_000);
}

#[test]
fn every_accepted_case_comes_back() {
    let mut accepted = 0;
    for case in cases::all() {
        if let Ok(parts) = read(&case) {
            assert_eq!(write(&parts).map(|bytes| bytes.to_vec()), Ok(case));
            accepted += 1;
        }
    }
    assert!(accepted > 100);
}
