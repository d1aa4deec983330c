//! Gates of three and more sources as trees of gates of two.
//!
//! The last gate of a tree has the kind of the wide gate, and the others that kind without its inversion. A tree is balanced: each doubling of the
//! sources makes it deeper by one, where a chain would be nearly as deep as there are sources, and slower and wider in a drawing. The sources
//! keep their order and each is read once, so each pin of the wide gate is a pin of its tree, and the wide gate's name has the same value under
//! every pattern, X's included.
//!
//! The gates that are made stand in lines of their own before the line of the wide gate, where its sources alone are put anew. All other bytes
//! stay, but for keywords in small letters and `BUF`, which are put as the library reads them. Flip-flops stay flip-flops.
mod fresh;
mod tree;

use crate::clocked;
use crate::edit::{Edit, Edited};
use crate::explain::{explain_statements, too_large, CYCLE, MOST_BYTES, NAME};
use crate::notation::{at_place, Gate, Spelling, Text};
use fresh::Fresh;
use ullimaqsu::{Refusal, MOST_LINES};

/// The text with gates of two sources, which the library accepts, flip-flops apart; or what is wrong, in words.
pub fn narrowed(text: &[u8]) -> Result<Vec<u8>, String> {
    let text = Text::read(text, Spelling::Wide).map_err(|stuck| at_place(text, stuck.at, &stuck.says))?;
    let lines = text.definitions().count() + text.gates().map(made_for).sum::<usize>();
    if lines > MOST_LINES {
        return Err(too_large_narrow("circuit", lines, "lines", MOST_LINES));
    }
    let narrow = rewritten(&text);
    if narrow.bytes.len() > MOST_BYTES {
        return Err(too_large_narrow("text", narrow.bytes.len(), "bytes", MOST_BYTES));
    }
    match clocked::read(&Text::read(&narrow.bytes, Spelling::Clocked).expect("a narrow text is right in syntax")) {
        Ok(_) => Ok(narrow.bytes),
        Err(refusal) => Err(explain_statements(&text, &of_the_original(&text, &narrow, refusal))),
    }
}

fn too_large_narrow(what: &str, count: usize, of: &str, most: usize) -> String {
    format!("with gates of two sources {}", too_large(what, count, of, most))
}

fn rewritten(text: &Text) -> Edited {
    let mut fresh = Fresh::beside(text);
    let keywords = text.misspelled.iter().map(|keyword| Edit::of(keyword.word, keyword.right));
    let trees = text.gates().filter(|gate| made_for(gate) > 0).flat_map(|gate| tree::edits(text.bytes, gate, &mut fresh));
    let mut edits: Vec<Edit> = keywords.chain(trees).collect();
    edits.sort_by_key(|edit| edit.from);
    Edited::new(text.bytes, &edits)
}

/// How many gates are made for one.
fn made_for(gate: &Gate) -> usize {
    gate.sources.len().saturating_sub(2)
}

/// A refusal of the narrow text, with its place in the original.
fn of_the_original(text: &Text, narrow: &Edited, refusal: Refusal) -> Refusal {
    let place = usize::try_from(refusal.place).unwrap_or(usize::MAX);
    let place = match refusal.number {
        NAME => narrow.origin(place),
        CYCLE => gate_of(text, place),
        _ => place,
    };
    Refusal::new(refusal.number, place as u64)
}

/// The gate that the gate of this number in the narrow text is, or for which it was made.
fn gate_of(text: &Text, number: usize) -> usize {
    let mut behind = 0;
    let is_before = |gate: &&Gate| {
        behind += 1 + made_for(gate);
        behind <= number
    };
    text.gates().take_while(is_before).count()
}
