//! What the statements of a text say together: names, the circuit, and the values that the equations give.
use super::parse::{parse, Read, Statement, Word};
use crate::circuit::{Circuit, Gate, Line};
use crate::refusal::{refusal, Refusal};
use crate::values::Value;
use std::collections::{HashMap, HashSet};

/// A name's value or line or place.
pub type ByName<'a, T> = HashMap<&'a [u8], T>;

/// A text by its statements.
#[derive(Clone, Debug)]
pub struct Text<'a> {
    /// The names that are defined, in order.
    pub defined: Vec<Word<'a>>,
    pub inputs: Vec<Word<'a>>,
    pub outputs: Vec<Word<'a>>,
    pub equations: Vec<(Word<'a>, Gate<Word<'a>>)>,
}

/// The circuit of a text, the name of each line where it is defined, and the line of each name.
#[derive(Clone, Debug)]
pub struct Placed<'a> {
    pub circuit: Circuit,
    pub names: Vec<Word<'a>>,
    pub line_of: ByName<'a, usize>,
}

impl<'a> Text<'a> {
    pub fn read(text: &'a [u8]) -> Read<Text<'a>> {
        let mut read = Text { defined: vec![], inputs: vec![], outputs: vec![], equations: vec![] };
        for statement in parse(text)? {
            match statement {
                Statement::Output(name) => read.outputs.push(name),
                Statement::Input(name) => {
                    read.defined.push(name);
                    read.inputs.push(name);
                }
                Statement::Equation(name, gate) => {
                    read.defined.push(name);
                    read.equations.push((name, gate));
                }
            }
        }
        Ok(read)
    }

    /// The names that are used: those that gates read, and then those of outputs.
    pub fn used(&self) -> impl Iterator<Item = Word<'a>> + '_ {
        self.equations.iter().flat_map(|(_, gate)| gate.sources()).chain(self.outputs.iter().copied())
    }

    /// Every name is defined once. Refusal 15.
    pub fn names(&self) -> Result<(), Refusal> {
        let mut known = HashSet::new();
        let second: Vec<Word> = self.defined.iter().copied().filter(|word| !known.insert(word.name)).collect();
        let unknown = self.used().filter(|word| !known.contains(word.name));
        match unknown.chain(second).map(|word| word.at).min() {
            Some(place) => Err(refusal(15, place)),
            None => Ok(()),
        }
    }

    /// The inputs, and then always the first equation whose sources have lines. Refusal 16. Every name must be defined once.
    pub fn place(&self) -> Result<Placed<'a>, Refusal> {
        // definitions are numbered: the inputs, then the equations
        let words: Vec<Word> = self.inputs.iter().chain(self.equations.iter().map(|(word, _)| word)).copied().collect();
        let number_of = places(&words);
        let outputs: HashSet<&[u8]> = self.outputs.iter().map(|word| word.name).collect();
        let line = |gate, number: usize| Line { gate, output: outputs.contains(words[number].name) };

        let inputs = self.inputs.len();
        let mut lines: Vec<Line> = (0..inputs).map(|number| line(Gate::Input, number)).collect();
        let mut names = self.inputs.clone();
        let mut line_of: Vec<Option<usize>> = (0..words.len()).map(|number| (number < inputs).then_some(number)).collect();
        let gates: Vec<Gate> = self.equations.iter().map(|(_, gate)| gate.over(|_, source| number_of[source.name])).collect();
        let sources: Vec<Vec<usize>> = gates.iter().map(|gate| gate.sources()).collect();
        let mut waiting: Vec<usize> = (0..gates.len()).collect();
        while !waiting.is_empty() {
            let ready = |&gate: &usize| sources[gate].iter().all(|&source| line_of[source].is_some());
            let Some(first) = waiting.iter().position(ready) else { return Err(refusal(16, waiting[0])) };
            let gate = waiting.remove(first);
            line_of[inputs + gate] = Some(lines.len());
            lines.push(line(gates[gate].over(|_, source| line_of[source].expect("placed")), inputs + gate));
            names.push(words[inputs + gate]);
        }
        let line_of = places(&names);
        Ok(Placed { circuit: Circuit { lines }, names, line_of })
    }

    /// The value of each name that is defined, straight from the equations, where the inputs have these values. There must be no refusal.
    pub fn values(&self, inputs: &[Value]) -> ByName<'a, Value> {
        let equations: ByName<Gate<Word>> = self.equations.iter().map(|&(word, gate)| (word.name, gate)).collect();
        let mut known = self.inputs.iter().map(|word| word.name).zip(inputs.iter().copied()).collect();
        self.defined.iter().for_each(|word| {
            value(&equations, &mut known, word.name);
        });
        known
    }
}

/// The place of each name in a list.
fn places<'a>(names: &[Word<'a>]) -> ByName<'a, usize> {
    names.iter().enumerate().map(|(place, word)| (word.name, place)).collect()
}

/// The value of a name, by asking for those in its equation.
fn value<'a>(equations: &ByName<'a, Gate<Word<'a>>>, known: &mut ByName<'a, Value>, name: &'a [u8]) -> Value {
    if let Some(&value) = known.get(name) {
        return value;
    }
    let found = equations[name].over(|_, source| value(equations, known, source.name)).value();
    known.insert(name, found);
    found
}
