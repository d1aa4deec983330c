//! The same algorithms in safe Rust with plain indexing, over the same bytes. They answer as the C entries do, so that results can be
//! compared byte by byte.

pub mod audit;
pub mod bench;
pub mod check;
pub mod clauses;
pub mod compact;
pub mod control;
pub mod dictionary;
pub mod gates;
pub mod lanes;
pub mod search;
pub mod search_all;
pub mod search_heads;
mod simulate;
pub mod suspects;
pub mod unfold;
pub mod unfold_dictionary;

/// Writes the numbers of an answer.
fn report(returned: u32, numbers: [u64; 3], answer: &mut [u8; 32]) -> u32 {
    answer.fill(0);
    for (bytes, number) in answer.chunks_exact_mut(8).zip(numbers) {
        bytes.copy_from_slice(&number.to_le_bytes());
    }
    returned
}

/// The little-endian number in two bytes.
fn word(bytes: &[u8], at: usize) -> usize {
    bytes[at] as usize + 256 * bytes[at + 1] as usize
}

/// The kind that has three pins, of which the last is the select.
const SELECTOR: u8 = 9;

fn pins(kind: u8) -> usize {
    match kind {
        0 => 0,
        1 | 2 => 1,
        SELECTOR => 3,
        _ => 2,
    }
}
