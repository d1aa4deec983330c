//! The bench notation, read by hand: what a text says, or the first byte that can't go on and what should stand there.
//!
//! Which texts are accepted the library alone decides. This reading is for what it does not give: words for a refusal, and texts that it refuses,
//! with gates of three and more sources or with flip-flops.
mod brackets;
mod place;
mod reader;

pub use place::{at_place, line_begin, line_of};

use crate::kind::Kind;
use std::fmt;

/// The most letters of a name.
pub const LONGEST_NAME: usize = 16;

/// How a text may be spelled.
#[derive(Clone, Copy, PartialEq, Eq, Debug)]
pub enum Spelling {
    /// As the library reads it.
    Strict,
    /// The same, and flip-flops besides.
    Clocked,
    /// As many files are: with flip-flops, gates of any number of sources above one, keywords in small letters, and `BUF`.
    Wide,
}

/// A name or keyword of a text, and its first byte.
#[derive(Clone, Copy, PartialEq, Eq, Debug)]
pub struct Word<'a> {
    pub at: usize,
    pub name: &'a [u8],
}

impl Word<'_> {
    /// The byte behind it.
    pub fn end(&self) -> usize {
        self.at + self.name.len()
    }

    /// It has letters, digits and underscores alone.
    pub fn letters(&self) -> String {
        String::from_utf8_lossy(self.name).into_owned()
    }
}

/// As it is quoted.
impl fmt::Display for Word<'_> {
    fn fmt(&self, f: &mut fmt::Formatter) -> fmt::Result {
        write!(f, "`{}`", self.letters())
    }
}

#[derive(Debug)]
pub struct Gate<'a> {
    pub name: Word<'a>,
    pub kind: Kind,
    /// In a text as the library reads it there are one or two.
    pub sources: Vec<Word<'a>>,
}

/// `Q = DFF(D)`: at each clock the state line Q takes the value that the data line D had.
#[derive(Debug)]
pub struct FlipFlop<'a> {
    pub state: Word<'a>,
    pub data: Word<'a>,
    /// The byte behind its bracket.
    pub end: usize,
}

/// What a line of a text says.
#[derive(Debug)]
pub enum Statement<'a> {
    Input(Word<'a>),
    Output(Word<'a>),
    Gate(Gate<'a>),
    FlipFlop(FlipFlop<'a>),
}

/// A keyword that is not spelled as the library reads it, and how it should be.
#[derive(Debug)]
pub struct Misspelled<'a> {
    pub word: Word<'a>,
    pub right: &'static str,
}

/// A text by its statements.
#[derive(Debug)]
pub struct Text<'a> {
    pub bytes: &'a [u8],
    pub statements: Vec<Statement<'a>>,
    pub misspelled: Vec<Misspelled<'a>>,
}

/// The first byte that can't go on, or the text's length where it ends early, and what should stand there.
#[derive(Debug, PartialEq, Eq)]
pub struct Stuck {
    pub at: usize,
    pub says: String,
}

impl<'a> Text<'a> {
    pub fn read(bytes: &'a [u8], spelling: Spelling) -> Result<Text<'a>, Stuck> {
        reader::read(bytes, spelling)
    }

    /// In the order of the text.
    pub fn gates(&self) -> impl Iterator<Item = &Gate<'a>> {
        self.statements.iter().filter_map(|statement| match statement {
            Statement::Gate(gate) => Some(gate),
            _ => None,
        })
    }

    /// In the order of the text.
    pub fn flip_flops(&self) -> impl Iterator<Item = &FlipFlop<'a>> {
        self.statements.iter().filter_map(|statement| match statement {
            Statement::FlipFlop(flip_flop) => Some(flip_flop),
            _ => None,
        })
    }

    /// The names where they are defined, as inputs, gates or flip-flops, in the order of the text.
    pub fn definitions(&self) -> impl Iterator<Item = Word<'a>> + '_ {
        self.statements.iter().filter_map(|statement| match statement {
            Statement::Input(name) => Some(*name),
            Statement::Gate(gate) => Some(gate.name),
            Statement::FlipFlop(flip_flop) => Some(flip_flop.state),
            Statement::Output(_) => None,
        })
    }
}

/// Whether a name may have it.
pub fn is_of_a_name(byte: u8) -> bool {
    byte.is_ascii_alphanumeric() || byte == b'_'
}

/// The letters, digits and underscores from here on.
pub fn word_at(text: &[u8], at: usize) -> Word<'_> {
    let rest = text.get(at..).unwrap_or_default();
    let len = rest.iter().take_while(|&&byte| is_of_a_name(byte)).count();
    Word { at, name: &rest[..len] }
}
