//! Numbers of refusal and their places.

/// The number of the first refusal that applies, and its place.
#[derive(Clone, Copy, Debug, PartialEq, Eq)]
pub struct Refusal {
    pub number: u32,
    pub place: usize,
}

/// The refusal of this number at this place.
pub fn refusal(number: u32, place: usize) -> Refusal {
    Refusal { number, place }
}

/// Refuses at place 0 unless the condition holds.
pub fn ensure(holds: bool, number: u32) -> Result<(), Refusal> {
    holds.then_some(()).ok_or(refusal(number, 0))
}

/// Cuts a file into its records of eight bytes, if it has 1 to `most` whole ones.
pub fn records(bytes: &[u8], most: usize) -> Option<impl Iterator<Item = [u8; 8]> + '_> {
    let records = bytes.chunks_exact(8);
    let whole = records.remainder().is_empty() && (1..=most).contains(&records.len());
    whole.then(|| records.map(|record| record.try_into().expect("eight bytes")))
}
