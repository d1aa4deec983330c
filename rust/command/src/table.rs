//! The dictionary of any number of faults and patterns, by pieces that the library takes: no entry depends on another.
use crate::circuit::Circuit;
use crate::entry::Entry;
use crate::fault::{self, Fault};
use crate::pattern::{self, Pattern};

/// The most faults and the most patterns of a call.
pub const MOST: usize = 256;

/// The most letters that are held at once.
const MOST_LETTERS: usize = 64 << 20;

/// The library's table of at most 256 faults and 256 patterns: a row for each pattern, and in it an entry for each fault.
pub fn entries(circuit: &Circuit, faults: &[Fault], patterns: &[Pattern]) -> Vec<u8> {
    let (records, values) = (fault::records(faults), pattern::bytes(patterns));
    let (mut table, mut work) = (vec![0; faults.len() * patterns.len()], vec![0; 4 * circuit.size()]);
    ullimaqsu::dictionary_lanes(&circuit.records, &records, &values, &mut table, &mut work)
        .expect("a circuit, faults and patterns that were read, and memory of its exact size, are never refused");
    table
}

/// The faults in pieces, each as large as can be held with all its letters.
pub fn pieces<'a>(faults: &'a [Fault], patterns: &[Pattern]) -> impl Iterator<Item = &'a [Fault]> {
    faults.chunks((MOST_LETTERS / patterns.len().max(1)).clamp(1, MOST))
}

/// For each fault of a piece its letters, one for each pattern, by tables of at most 256 patterns.
pub fn rows(entries: impl Fn(&[Fault], &[Pattern]) -> Vec<u8>, piece: &[Fault], patterns: &[Pattern]) -> Vec<String> {
    let mut rows = vec![String::with_capacity(patterns.len()); piece.len()];
    for some in patterns.chunks(MOST) {
        for entries in entries(piece, some).chunks_exact(piece.len()) {
            rows.iter_mut().zip(entries).for_each(|(row, &entry)| row.push(Entry::of(entry).letter()));
        }
    }
    rows
}
