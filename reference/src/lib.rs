//! A second, separate reading of the rules: it judges one procedure record (PD,
//! PE, PF), takes it apart and puts it together again, checks files, reads logs
//! and wanted lists, and picks corrections.
//!
//! - `layout`: the columns of both kinds of record and what each may hold
//! - `calendar`: how many cycles a year has
//! - `judge`: the three stages a record goes through (3, 4, 5)
//! - `columns`: the worked vectors of the columns, and what this program answers to them
//! - `parts`: the typed parts of a record
//! - `record`: from 133 bytes to parts, and back
//! - `cases`: the stored set of records
//! - `report`: what this program answers to that set
//! - `terminators`: every pair of bytes in the place of a terminator, and what this program answers to them
//! - `legs`: which leg may begin a route, follow another and end a route
//! - `file`: a whole file, and the stages that look at several records (1, 2, 6, 7, 8)
//! - `files`: the stored set of files, and what this program answers to it
//! - `log`: a correction log as text (9, 13)
//! - `wanted`: a list of wanted corrections
//! - `logs`: the stored set of both, and what this program answers to it
//! - `pick`: a log judged over its frozen file, picking (10, 11, 12, 14), and what explains both
//! - `picks`: the stored set of picks
//! - `random_picks`: random ones, of routes of every kind
//! - `pick_vectors`: how it is stored, and what this program answers to it
//! - `answers`: what the four programs print
//! - `folders`: the stored set of folders and the examples, and what this program answers to them
//! - `times`: the folders on which the cost of a pick is measured
//! - `random_folders`: folders without end, from a seed
//! - `compare`: those, held to what another program answers to them

pub mod answers;
pub mod calendar;
pub mod cases;
pub mod columns;
pub mod compare;
pub mod file;
pub mod files;
pub mod folders;
pub mod judge;
pub mod layout;
pub mod legs;
pub mod log;
pub mod logs;
pub mod parts;
pub mod pick;
pub mod pick_vectors;
pub mod picks;
pub mod random_folders;
pub mod random_picks;
pub mod record;
pub mod report;
pub mod terminators;
pub mod times;
pub mod wanted;

pub use judge::judge;
pub use parts::{Continuation, Frame, Leg, Parts};
pub use record::{read, write};

/// A stored file, by its path from this package, and what it holds.
pub type Stored = (&'static str, Vec<u8>);

/// All stored files: of columns, of records, of terminators, of files, of logs
/// and lists, of picks, of folders.
pub fn stored_files() -> Vec<Stored> {
    let set = cases::all();
    let records = [
        ("../crates/vectors_record/data/records.bin", cases::stored(&set)),
        ("../crates/vectors_record/stdout", report::all(&set).into_bytes()),
    ];
    columns::stored_files()
        .into_iter()
        .chain(records)
        .chain(terminators::stored_files())
        .chain(files::stored_files())
        .chain(logs::stored_files())
        .chain(pick_vectors::stored_files())
        .chain(folders::stored_files())
        .collect()
}

/// Why a record was not read or written. Columns count from 1; the place is 1
/// for a record read alone and 0 for one being written.
#[derive(Clone, Copy, Debug, PartialEq, Eq)]
pub struct Refusal {
    pub number: u8,
    pub place: usize,
    pub column: usize,
}
