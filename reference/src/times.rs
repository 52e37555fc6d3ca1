//! The inputs of picking whose cost is measured, as folders.

use std::path::Path;
use std::{fs, io};

use crate::answers::{pick_answer, Inputs};
use crate::file::LINE;
use crate::folders::listed;
use crate::picks::{timed, Case};

/// How much of everything there is in a case.
#[derive(Clone, Copy, Debug, PartialEq, Eq)]
pub struct Sizes {
    pub frozen: usize,
    pub outs: usize,
    pub puts: usize,
    pub corrections: usize,
    pub wanted: usize,
}

pub fn sizes(case: &Case) -> Sizes {
    let lines: Vec<&[u8]> = case.log.split_inclusive(|byte| *byte == b'\n').collect();
    let count = |letter: u8| lines.iter().filter(|line| line[0] == letter).count();
    Sizes {
        frozen: case.frozen.len() / LINE,
        outs: count(b'D'),
        puts: count(b'A'),
        corrections: count(b'C'),
        wanted: case.wanted.len(),
    }
}

/// What the programs read of a case: all of it.
pub fn inputs(case: &Case) -> Inputs {
    Inputs { frozen: case.frozen.clone(), log: case.log.clone(), want: listed(&case.wanted) }
}

/// Writes the inputs into a folder: `inputs`, which has the number, the name and
/// the sizes of each, and for each a folder by its number with its files and, in
/// `expected`, what `pick` is to print.
pub fn write(folder: &Path) -> io::Result<()> {
    let mut list = String::new();
    for (number, (name, case)) in (1_usize..).zip(timed()) {
        let Sizes { frozen, outs, puts, corrections, wanted } = sizes(&case);
        list += &format!("{number}\t{name}\t{frozen}\t{outs}\t{puts}\t{corrections}\t{wanted}\n");
        let (own, inputs) = (folder.join(number.to_string()), inputs(&case));
        inputs.write(&own)?;
        fs::write(own.join("expected"), pick_answer(&inputs))?;
    }
    fs::write(folder.join("inputs"), list)
}
