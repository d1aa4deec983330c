//! Gates in BLIF, as Berkeley ABC reads them.
use crate::circuits::{source, sources};

/// Where each kind, from 1, is 1: what its pins read, `-` for either.
const ONES: [&str; 8] = ["1 1", "0 1", "11 1", "0- 1\n-0 1", "1- 1\n-1 1", "00 1", "01 1\n10 1", "00 1\n11 1"];

/// The gate of a record, any but a selector, whose line and sources are called so.
pub fn gate(record: &[u8], line: &str, name: impl Fn(usize) -> String) -> String {
    let read: String = (1..=sources(record[0])).map(|pin| name(source(record, pin)) + " ").collect();
    format!(".names {read}{line}\n{}\n", ONES[usize::from(record[0]) - 1])
}
