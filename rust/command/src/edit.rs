//! A text of which some parts are put anew.
use crate::notation::Word;

/// What is put for a part of a text.
#[derive(Clone)]
pub enum Piece<'a> {
    /// A word of the text itself.
    Kept(Word<'a>),
    New(String),
}

/// A part of a text, which may be empty, and what is put for it.
pub struct Edit<'a> {
    pub from: usize,
    pub to: usize,
    pub put: Vec<Piece<'a>>,
}

impl<'a> Edit<'a> {
    pub fn of(word: Word<'a>, right: &str) -> Edit<'a> {
        Edit { from: word.at, to: word.end(), put: vec![Piece::New(right.to_string())] }
    }
}

/// The text as it becomes.
pub struct Edited {
    pub bytes: Vec<u8>,
    /// Where bytes of the old text stand: the first here, and the first there.
    kept: Vec<(usize, usize)>,
}

impl Edited {
    /// The edits stand in the order of the text.
    pub fn new(text: &[u8], edits: &[Edit]) -> Edited {
        let mut edited = Edited { bytes: vec![], kept: vec![] };
        let mut at = 0;
        for edit in edits {
            edited.keep(at, &text[at..edit.from]);
            for piece in &edit.put {
                match piece {
                    Piece::Kept(word) => edited.keep(word.at, word.name),
                    Piece::New(new) => edited.bytes.extend(new.bytes()),
                }
            }
            at = edit.to;
        }
        edited.keep(at, &text[at..]);
        edited
    }

    fn keep(&mut self, origin: usize, bytes: &[u8]) {
        self.kept.push((self.bytes.len(), origin));
        self.bytes.extend(bytes);
    }

    /// Where a byte that was kept stood in the old text.
    pub fn origin(&self, place: usize) -> usize {
        let last = self.kept.iter().rfind(|(here, _)| *here <= place);
        last.map_or(place, |(here, there)| there + (place - here))
    }
}
