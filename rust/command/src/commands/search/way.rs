//! The ways to search.
use crate::circuit::Circuit;
use crate::heads::Heads;
use crate::words::Words;

pub enum Way {
    Inputs,
    /// Over head lines, where these serve.
    Heads(Heads),
    /// The same, and there over inputs too.
    Both(Heads),
}

impl Way {
    /// The way that is asked for.
    pub fn asked(words: &Words, circuit: &Circuit) -> Way {
        match (words.has("--heads"), words.has("--compare")) {
            (false, _) => Way::Inputs,
            (true, false) => Way::Heads(Heads::of(circuit)),
            (true, true) => Way::Both(Heads::of(circuit)),
        }
    }

    pub fn heads(&self) -> Option<&Heads> {
        match self {
            Way::Inputs => None,
            Way::Heads(heads) | Way::Both(heads) => Some(heads),
        }
    }
}
