//! The bench reader, and the names of its lines.
mod equations;
mod parse;

use crate::circuit::Circuit;
use crate::refusal::{ensure, refusal, Refusal};
pub use equations::{ByName, Placed, Text};
pub use parse::{parse, Read, Statement, Word};

/// The circuit of a text, and its names. Refusals 14 to 16.
pub fn placed(text: &[u8]) -> Result<Placed<'_>, Refusal> {
    let text = Text::read(text).map_err(|place| refusal(14, place))?;
    text.names()?;
    text.place()
}

/// The same, if its records are accepted too. Refusals 14 to 16, then those of the check.
fn accepted(text: &[u8]) -> Result<Placed<'_>, Refusal> {
    let placed = placed(text)?;
    Circuit::read(&placed.circuit.write())?;
    Ok(placed)
}

/// The bench reader, lent a buffer of this size: the records.
pub fn bench(text: &[u8], room: usize) -> Result<Vec<u8>, Refusal> {
    let placed = accepted(text)?;
    ensure(room == 16_384, 10)?;
    Ok(placed.circuit.write())
}

/// The names of a text's lines, lent so many places: for each line the first byte of its name where it is defined.
pub fn bench_names(text: &[u8], room: usize) -> Result<Vec<u32>, Refusal> {
    let placed = accepted(text)?;
    ensure(room == 2_048, 10)?;
    Ok(placed.names.iter().map(|word| word.at as u32).collect())
}
