//! Writes the stored sets of columns, of records, of terminators, of files, of
//! logs, of picks and of folders, and the answers to them and to the examples. Or one of these:
//!
//! - `times FOLDER`: the folders on which the cost of a pick is measured, and what `pick` is to print of each
//! - `folders PLACE`: the stored folders as folders, and what the programs are to print of each
//! - `print pick`, `print newfile`, `print check`, `print why`: what that program is to print of the folder that this one runs in
//! - `answers`: what this program answers to `folders.bin` in the folder that it runs in, as `vectors_answers` prints it
//! - `compare SEED N [WORDS]`: N random folders from a seed, held to what the program that the words start answers
//! - `random SEED NUMBER FOLDER`: the files of one of them, into a folder

use std::io::Write;
use std::path::Path;
use std::{env, fs, io, process};

use reference::{answers, compare, folders, random_folders, stored_files, times};

const USAGE: &str =
    "usage: reference [times FOLDER | folders PLACE | print NAME | answers | compare SEED N [WORDS] | random SEED NUMBER FOLDER]";

fn main() {
    if let Err(problem) = run() {
        eprintln!("reference: {problem}");
        process::exit(2);
    }
}

fn run() -> io::Result<()> {
    let words: Vec<String> = env::args().skip(1).collect();
    match words.iter().map(String::as_str).collect::<Vec<_>>()[..] {
        [] => write_stored(),
        ["times", folder] => times::write(Path::new(folder)),
        ["folders", place] => folders::write(Path::new(place)),
        ["print", "pick"] => io::stdout().write_all(&answers::pick_answer(&read_folder())),
        ["print", "newfile"] => io::stdout().write_all(&answers::newfile_answer(&read_folder())),
        ["print", "check"] => io::stdout().write_all(&answers::check_answer(&read_folder())),
        ["print", "why"] => io::stdout().write_all(&answers::why_answer(&read_folder())),
        ["answers"] => answer_folders(),
        ["compare", seed, cases, ref program @ ..] => {
            let differing = compare::run(number(seed)?, number(cases)?, program)?;
            process::exit(if differing == 0 { 0 } else { 1 })
        }
        ["random", seed, case, folder] => {
            random_folders::random(number(seed)?, number(case)?).write(Path::new(folder))
        }
        _ => Err(wrong(USAGE)),
    }
}

fn wrong(what: &str) -> io::Error {
    io::Error::new(io::ErrorKind::InvalidInput, what)
}

fn number(word: &str) -> io::Result<u64> {
    word.parse().map_err(|_| wrong(&format!("{word} is no number")))
}

fn write_stored() -> io::Result<()> {
    for (name, made) in stored_files() {
        let path = Path::new(env!("CARGO_MANIFEST_DIR")).join(name);
        if let Some(folder) = path.parent() {
            fs::create_dir_all(folder)?;
        }
        fs::write(path, made)?;
    }
    Ok(())
}

/// The folder that this program runs in. What can't be read to its end counts as
/// empty.
fn read_folder() -> answers::Inputs {
    let [frozen, log, want] = answers::NAMES.map(|name| fs::read(name).unwrap_or_default());
    answers::Inputs::of([&frozen, &log, &want])
}

fn answer_folders() -> io::Result<()> {
    let stored = folders::unpacked(&fs::read("folders.bin")?);
    let answers = (1..).zip(&stored).flat_map(|(number, inputs)| folders::answer(number, inputs));
    io::stdout().write_all(&answers.collect::<Vec<u8>>())
}
