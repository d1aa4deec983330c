//! Names that a text does not have.
use crate::notation::{Statement, Text, Word, LONGEST_NAME};
use std::collections::HashSet;

pub struct Fresh(HashSet<String>);

impl Fresh {
    /// Beside the names of a text, defined or used.
    pub fn beside(text: &Text) -> Fresh {
        let words = text.statements.iter().flat_map(|statement| match statement {
            Statement::Input(name) | Statement::Output(name) => vec![name],
            Statement::Gate(gate) => gate.sources.iter().chain([&gate.name]).collect(),
            Statement::FlipFlop(flip_flop) => vec![&flip_flop.state, &flip_flop.data],
        });
        Fresh(words.map(Word::letters).collect())
    }

    /// A name with the next number that is free, cut where it would be too long.
    pub fn name(&mut self, of: &str) -> String {
        let numbered = |number: u32| {
            let end = format!("_{number}");
            let begin: String = of.chars().take(LONGEST_NAME - end.len()).collect();
            begin + &end
        };
        let name = (1..).map(numbered).find(|name| !self.0.contains(name)).expect("a text has fewer names than there are numbers");
        self.0.insert(name.clone());
        name
    }
}
