//! Refusal 15: a name that is defined nowhere, or twice.
use crate::notation::{at_place, line_of, word_at, Text};

/// Of the name at this byte; nothing where there is no name.
pub fn explain(text: &Text, place: usize) -> Option<String> {
    let word = word_at(text.bytes, place);
    if word.name.is_empty() {
        return None;
    }
    let says = match text.definitions().find(|definition| definition.name == word.name) {
        None => format!("{word} is used here and defined nowhere"),
        Some(first) => format!("{word} is defined here a second time, after line {}", line_of(text.bytes, first.at)),
    };
    Some(at_place(text.bytes, place, &says))
}
