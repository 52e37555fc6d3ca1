//! What the four programs print of a folder: the pick, the new file, the check
//! of the log, and why the pick is as it is.

use std::path::Path;
use std::{fs, io};

use crate::file::{route, LINE};
use crate::pick::{check_log, failing, new_file, pick, reasons, Cause, Reason, Why, IN_LOG, ROOM};
use crate::{log, wanted, Refusal};

/// The files of a folder, in the order in which everything here has them.
pub const NAMES: [&str; 3] = ["frozen.txt", "log.txt", "want.txt"];

/// The bytes that each of them may have. One more is read, so that a file that
/// is too long is seen to be so.
const LIMITS: [usize; 3] = [ROOM, 60_000, 800];

/// What the programs have read: nothing of a file that they could not read.
#[derive(Clone, Debug, PartialEq, Eq)]
pub struct Inputs {
    pub frozen: Vec<u8>,
    pub log: Vec<u8>,
    pub want: Vec<u8>,
}

impl Inputs {
    /// What is read of files with these bytes.
    pub fn of(files: [&[u8]; 3]) -> Inputs {
        let read = |file: usize| files[file][..files[file].len().min(LIMITS[file] + 1)].to_vec();
        Inputs { frozen: read(0), log: read(1), want: read(2) }
    }

    /// Writes the files into a folder, which is made where there is none.
    pub fn write(&self, folder: &Path) -> io::Result<()> {
        fs::create_dir_all(folder)?;
        for (name, bytes) in NAMES.iter().zip([&self.frozen, &self.log, &self.want]) {
            fs::write(folder.join(name), bytes)?;
        }
        Ok(())
    }
}

/// The corrections taken and the records of the new file, then each number.
pub fn pick_answer(inputs: &Inputs) -> Vec<u8> {
    printed(pick(&inputs.frozen, &inputs.log, &wanted::numbers(&inputs.want)).map(|picked| {
        let takes: String = picked.taken.iter().map(|number| format!("take\t{number}\n")).collect();
        format!("pick\t{}\t{}\n{takes}", picked.taken.len(), picked.records.len()).into_bytes()
    }))
}

/// The new file alone.
pub fn newfile_answer(inputs: &Inputs) -> Vec<u8> {
    printed(new_file(&inputs.frozen, &inputs.log, &wanted::numbers(&inputs.want), ROOM))
}

/// The records of the frozen file and the corrections of the log.
pub fn check_answer(inputs: &Inputs) -> Vec<u8> {
    let records = inputs.frozen.len() / LINE;
    let said = check_log(&inputs.frozen, &inputs.log).and_then(|()| log::read(&inputs.log, records));
    printed(said.map(|log| format!("ok\t{records}\t{}\n", log.corrections).into_bytes()))
}

/// Why each correction is taken; or the refusal, and what it is about.
pub fn why_answer(inputs: &Inputs) -> Vec<u8> {
    match reasons(&inputs.frozen, &inputs.log, &wanted::numbers(&inputs.want)) {
        Ok(reasons) => reasons.iter().flat_map(|reason| reason_line(&inputs.log, reason)).collect(),
        Err(refusal) => [refused(refusal), more(inputs, refusal)].concat(),
    }
}

fn reason_line(log: &[u8], Reason { correction, why }: &Reason) -> Vec<u8> {
    match why {
        Why::Wanted => format!("take\t{correction}\twanted\n").into_bytes(),
        Why::For { correction: later, source } => {
            let front = format!("take\t{correction}\tfor\t{later}\t").into_bytes();
            [&front[..], route(&log[source - IN_LOG..]), b"\n"].concat()
        }
    }
}

/// What is said behind the line of a refusal: the frozen record that is refused,
/// the line of the log that can't be applied, or the refused route and its
/// record.
fn more(inputs: &Inputs, refusal: Refusal) -> Vec<u8> {
    match refusal.number {
        1 | 3..=8 => {
            let from = &inputs.frozen[LINE * (refusal.place - 1)..];
            shown(Some(&from[..from.len().min(LINE - 1)]).filter(|record| !record.is_empty()))
        }
        10 | 11 => match failing(&inputs.frozen, &inputs.log).expect("a correction fails").cause {
            Cause::Line(line) => format!("line\t{line}\n").into_bytes(),
            Cause::Route { records, refusal: Refusal { number, place, column }, .. } => {
                let numbers = format!("\t{number}\t{place}\t{column}\n").into_bytes();
                // A continuation that is missing behind its last record is not there to be shown.
                [b"in\t", route(records[0]), &numbers, &shown(records.get(place - 1).copied())].concat()
            }
        },
        _ => Vec::new(),
    }
}

/// The line of a record, where there is one.
fn shown(record: Option<&[u8]>) -> Vec<u8> {
    record.map_or(Vec::new(), |record| [b"record\t", record, b"\n"].concat())
}

fn printed(answer: Result<Vec<u8>, Refusal>) -> Vec<u8> {
    answer.unwrap_or_else(refused)
}

/// The line of a refusal.
fn refused(Refusal { number, place, column }: Refusal) -> Vec<u8> {
    format!("no\t{number}\t{place}\t{column}\n").into_bytes()
}
