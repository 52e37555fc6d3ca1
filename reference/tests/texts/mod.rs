//! What the text of a file or of a log says of routes, read by itself.

use std::collections::{BTreeMap, HashSet};

use reference::file::LINE;

/// The records of each route.
pub fn by_route(file: &[u8]) -> BTreeMap<&[u8], Vec<&[u8]>> {
    let mut routes: BTreeMap<&[u8], Vec<&[u8]>> = BTreeMap::new();
    for line in file.chunks(LINE) {
        routes.entry(&line[..25]).or_default().push(line);
    }
    routes
}

/// The routes of each correction, by the text of the log.
pub fn touched(log: &[u8]) -> Vec<HashSet<&[u8]>> {
    let mut corrections: Vec<HashSet<&[u8]>> = Vec::new();
    for line in log.split_inclusive(|byte| *byte == b'\n') {
        match line[0] {
            b'C' => corrections.push(HashSet::new()),
            _ => drop(corrections.last_mut().expect("a correction has begun").insert(&line[2..27])),
        }
    }
    corrections
}
