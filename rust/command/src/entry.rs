//! Entries of a dictionary.

/// What it has for a pattern and a fault.
#[derive(Clone, Copy, PartialEq, Eq, Debug)]
pub enum Entry {
    Pass,
    Fail,
    Unknown,
}

impl Entry {
    /// Of the library's byte.
    pub fn of(byte: u8) -> Entry {
        match byte {
            0 => Entry::Pass,
            1 => Entry::Fail,
            _ => Entry::Unknown,
        }
    }

    pub fn letter(self) -> char {
        match self {
            Entry::Pass => 'P',
            Entry::Fail => 'F',
            Entry::Unknown => 'U',
        }
    }
}
