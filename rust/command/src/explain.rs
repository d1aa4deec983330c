//! What a refusal of a bench text means, with line and column.
//!
//! Nothing is judged anew: the text is read once more for words about the place that the library gave. Where that reading saw another place, the
//! refusal's own words would stand; the tests know no such text.
mod cycle;
mod name;
mod size;

pub use size::{too_large, MOST_INPUTS};

use crate::notation::{at_place, Spelling, Stuck, Text};
use size::thousands;
use ullimaqsu::Refusal;

/// The most bytes of a text.
pub const MOST_BYTES: usize = 32_768;

pub const SYNTAX: u32 = 14;
pub const NAME: u32 = 15;
pub const CYCLE: u32 = 16;

pub fn explain(text: &[u8], refusal: &Refusal) -> String {
    let too_long = too_long(text, place(refusal)).filter(|_| refusal.number == SYNTAX);
    too_long.unwrap_or_else(|| match Text::read(text, Spelling::Strict) {
        Ok(read) => explain_statements(&read, refusal),
        Err(stuck) if refusal.number == SYNTAX && refusal.place == stuck.at as u64 => explain_stuck(text, &stuck),
        Err(_) => refusal.to_string(),
    })
}

/// The same for a text that is read by hand first.
pub fn explain_stuck(text: &[u8], stuck: &Stuck) -> String {
    too_long(text, stuck.at).unwrap_or_else(|| at_place(text, stuck.at, &stuck.says))
}

/// Where a text goes on behind the most that it has, and no byte before that is wrong, but the one at this place.
fn too_long(text: &[u8], place: usize) -> Option<String> {
    let goes_on = || at_place(text, MOST_BYTES, &format!("a text has at most {} bytes, and this one goes on", thousands(MOST_BYTES)));
    (text.len() > MOST_BYTES && place >= MOST_BYTES).then(goes_on)
}

fn place(refusal: &Refusal) -> usize {
    usize::try_from(refusal.place).unwrap_or(usize::MAX)
}

/// The same for a text whose syntax is right.
pub fn explain_statements(text: &Text, refusal: &Refusal) -> String {
    let place = place(refusal);
    let says = match refusal.number {
        SYNTAX => too_long(text.bytes, place),
        NAME => name::explain(text, place),
        CYCLE => cycle::explain(text, place),
        number => size::explain(text, number),
    };
    says.unwrap_or_else(|| refusal.to_string())
}
