//! Refusals, and how the answer area is read.
use crate::field::BadField;
use std::{error, fmt};

/// Why an entry did nothing: the number of the refusal, and the place of what is wrong.
#[derive(Clone, Copy, Debug, PartialEq, Eq)]
pub struct Refusal {
    pub number: u32,
    pub place: u64,
    /// Of refusal 2, what stands at its place.
    pub field: Option<BadField>,
}

/// What the header says of a refusal. Its place counts something, or is always 0.
#[derive(Clone, Copy, Debug, PartialEq, Eq)]
pub struct Meaning {
    pub name: &'static str,
    pub number: u32,
    pub says: &'static str,
    pub counts: Option<&'static str>,
}

pub(crate) const HEADER: &str = include_str!("../../include/ullimaqsu.h");

/// The refusals in order, from the table of the header, which alone has their names and words.
pub fn refusals() -> impl Iterator<Item = Meaning> {
    HEADER.lines().filter_map(meaning)
}

/// A row of the table: `each(NAME, NUMBER, "what it says", "what its place counts")`.
fn meaning(line: &'static str) -> Option<Meaning> {
    let (named, words) = line.trim_start().strip_prefix("each(")?.split_once('"')?;
    let (name, number) = named.trim_end_matches([',', ' ']).split_once(',').filter(|(name, _)| name.starts_with("ULLIMAQSU_"))?;
    let (says, counts) = words.split_once("\", \"")?;
    let counts = counts.split('"').next().filter(|counts| !counts.is_empty());
    Some(Meaning { name, number: number.trim().parse().ok()?, says, counts })
}

impl Refusal {
    /// The refusal of this number at this place, with nothing known of what stands there.
    pub const fn new(number: u32, place: u64) -> Refusal {
        Refusal { number, place, field: None }
    }
}

impl fmt::Display for Refusal {
    fn fmt(&self, f: &mut fmt::Formatter) -> fmt::Result {
        write!(f, "refusal {}: ", self.number)?;
        if let Some(field) = self.field {
            return write!(f, "{field}");
        }
        match refusals().find(|meaning| meaning.number == self.number) {
            Some(Meaning { says, counts: Some(counts), .. }) => write!(f, "{says} ({counts} {})", self.place),
            Some(Meaning { says, counts: None, .. }) => write!(f, "{says}"),
            None => write!(f, "unknown (place {})", self.place),
        }
    }
}

impl error::Error for Refusal {}

/// The four numbers that bytes begin with.
pub(crate) fn numbers(bytes: &[u8]) -> [u64; 4] {
    let mut numbers = [0; 4];
    for (number, bytes) in numbers.iter_mut().zip(bytes.chunks_exact(8)) {
        *number = u64::from_le_bytes(bytes.try_into().expect("eight bytes"));
    }
    numbers
}

/// Reads the answer area of a call: the four numbers of its answer, or the refusal.
pub(crate) fn answered(returned: u32, area: [u8; 32]) -> Result<[u64; 4], Refusal> {
    let numbers = numbers(&area);
    match returned {
        0 => Ok(numbers),
        number => Err(Refusal::new(number, numbers[0])),
    }
}

/// The same for a call that reads a circuit: refusal 2 also has the field that it is about.
pub(crate) fn answered_of(circuit: &[u8], returned: u32, area: [u8; 32]) -> Result<[u64; 4], Refusal> {
    answered(returned, area).map_err(|refusal| match refusal.number {
        2 => Refusal { field: BadField::at(refusal.place, circuit), ..refusal },
        _ => refusal,
    })
}
