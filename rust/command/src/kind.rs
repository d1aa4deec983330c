//! What a line is.

#[derive(Clone, Copy, PartialEq, Eq, Debug)]
pub enum Kind {
    Input,
    Buffer,
    Not,
    And,
    Nand,
    Or,
    Nor,
    Xor,
    Xnor,
    Selector,
}

use Kind::*;

/// The most pins of a kind.
pub const MOST_PINS: usize = 3;

/// The kinds in the order of their numbers, with their words. They are those of the bench notation, but that it has none for the selector.
const KINDS: [(Kind, &str); 10] = [
    (Input, "INPUT"),
    (Buffer, "BUFF"),
    (Not, "NOT"),
    (And, "AND"),
    (Nand, "NAND"),
    (Or, "OR"),
    (Nor, "NOR"),
    (Xor, "XOR"),
    (Xnor, "XNOR"),
    (Selector, "SELECTOR"),
];

impl Kind {
    /// The kind of this number. An accepted circuit has no number above 9.
    pub fn numbered(number: u8) -> Kind {
        KINDS[usize::from(number)].0
    }

    /// Its word, as people read it.
    pub const fn word(self) -> &'static str {
        KINDS[self as usize].1
    }

    /// How many pins it has.
    pub fn pins(self) -> usize {
        match self {
            Input => 0,
            Buffer | Not => 1,
            And | Nand | Or | Nor | Xor | Xnor => 2,
            Selector => 3,
        }
    }

    /// Its value is the opposite of what its name without the N has.
    pub fn inverts(self) -> bool {
        matches!(self, Not | Nand | Nor | Xnor)
    }
}
