//! The tree of one gate.
use super::fresh::Fresh;
use crate::edit::{Edit, Piece};
use crate::kind::Kind;
use crate::notation::{line_begin, Gate, Word};

/// What is put for a wide gate: lines before its own, and two sources for all of its sources.
pub fn edits<'a>(text: &[u8], gate: &Gate<'a>, fresh: &mut Fresh) -> [Edit<'a>; 2] {
    let mut tree = Tree { kind: upright(gate.kind), name: gate.name.letters(), end: line_end(text, gate.name.at), fresh, lines: vec![] };
    let sources = tree.pair(&gate.sources);
    let begin = line_begin(text, gate.name.at);
    let (first, last) = (gate.sources[0], gate.sources[gate.sources.len() - 1]);
    [Edit { from: begin, to: begin, put: tree.lines }, Edit { from: first.at, to: last.end(), put: sources }]
}

struct Tree<'a, 'b> {
    /// The kind of the gates that are made.
    kind: Kind,
    /// The name from which theirs are made.
    name: String,
    /// How their lines end.
    end: &'static str,
    fresh: &'b mut Fresh,
    lines: Vec<Piece<'a>>,
}

impl<'a> Tree<'a, '_> {
    /// The two halves of some sources as a gate has them between its brackets.
    fn pair(&mut self, sources: &[Word<'a>]) -> Vec<Piece<'a>> {
        let (first, second) = sources.split_at(sources.len().div_ceil(2));
        vec![self.joined(first), Piece::New(", ".to_string()), self.joined(second)]
    }

    /// The name that stands for some sources together: the only one, or that of a gate that is made for them.
    fn joined(&mut self, sources: &[Word<'a>]) -> Piece<'a> {
        if let [only] = sources {
            return Piece::Kept(*only);
        }
        let pair = self.pair(sources);
        let name = self.fresh.name(&self.name);
        self.lines.push(Piece::New(format!("{name} = {}(", self.kind.word())));
        self.lines.extend(pair);
        self.lines.push(Piece::New(format!("){}", self.end)));
        Piece::New(name)
    }
}

/// The kind without its inversion.
fn upright(kind: Kind) -> Kind {
    match kind {
        Kind::Nand => Kind::And,
        Kind::Nor => Kind::Or,
        Kind::Xnor => Kind::Xor,
        other => other,
    }
}

/// How the line of a byte ends. A last line that has no end takes that of the first line.
fn line_end(text: &[u8], at: usize) -> &'static str {
    let feed_from = |from: usize| text[from..].iter().position(|&byte| byte == b'\n').map(|feed| from + feed);
    match feed_from(at).or_else(|| feed_from(0)) {
        Some(feed) if text[..feed].ends_with(b"\r") => "\r\n",
        _ => "\n",
    }
}
