//! Drawn texts with flip-flops, and what each says.
use crate::harness::named::Named;
use crate::harness::root;
use cases::clocked::state;
use cases::texts::{dense, input, statements, written, Statement};
use cases::Random;
use second::clocked::Clocked;
use std::fs;

pub struct Drawn {
    pub text: Vec<u8>,
    /// The circuit of one step: what the same statements say with an input for each flip-flop.
    pub named: Named,
    pub states: Vec<u8>,
    pub steps: u64,
}

impl Drawn {
    /// A circuit of a few lines, some of whose inputs are flip-flops, over as many steps as fit or fewer.
    pub fn new(random: &mut Random) -> Drawn {
        let lines = 1 + random.below(24);
        let inputs = 1 + random.below(lines.min(12));
        let plain = statements(random, lines, inputs);
        let all = with_flip_flops(random, &plain);
        let text = written(random, &all);
        Drawn::of(random, &all, text)
    }

    /// Of these statements, which the text has.
    pub fn of(random: &mut Random, all: &[Statement], text: Vec<u8>) -> Drawn {
        let named = Named::of_text(&dense(&all.iter().map(without_flip_flop).collect::<Vec<_>>()));
        let states = flip_flops(all).flat_map(|[data, line]| state(line_of(&named, data), line_of(&named, line))).collect::<Vec<_>>();
        let inputs = named.inputs().len();
        let free = inputs - states.len() / 4;
        let most = (1..=8).filter(|steps| inputs + (steps - 1) * free <= 64).max().expect("a step");
        Drawn { text, named, states, steps: 1 + random.below(most) as u64 }
    }

    /// The example of this name.
    pub fn s27(steps: u64) -> Drawn {
        let text = fs::read_to_string(root().join("examples/s27/s27.bench")).expect("an example");
        let all: Vec<Statement> = text.lines().filter(|line| !line.is_empty() && !line.starts_with('#')).map(statement).collect();
        Drawn { steps, ..Drawn::of(&mut Random::new(1), &all, text.into_bytes()) }
    }

    /// The same for the second program.
    pub fn clocked(&self) -> Clocked {
        Clocked::read(&self.named.circuit.write(), &self.states, self.steps).expect("a clocked circuit")
    }

    pub fn flip_flops(&self) -> usize {
        self.states.len() / 4
    }
}

pub fn line_of(named: &Named, name: &str) -> usize {
    named.names.iter().position(|other| other == name).expect("a line")
}

pub fn flip_flop(state: &str, data: &str) -> Statement {
    [state, "=", "DFF", "(", data, ")"].map(String::from).to_vec()
}

/// A line by its words and signs.
fn statement(line: &str) -> Statement {
    let spaced = "(),=".chars().fold(line.to_string(), |line, sign| line.replace(sign, &format!(" {sign} ")));
    spaced.split_whitespace().map(String::from).collect()
}

fn is_flip_flop(statement: &Statement) -> bool {
    statement[1] == "=" && statement[2] == "DFF"
}

/// An input for a flip-flop.
fn without_flip_flop(statement: &Statement) -> Statement {
    if is_flip_flop(statement) {
        input(&statement[0])
    } else {
        statement.clone()
    }
}

/// Data and state of each flip-flop.
fn flip_flops(statements: &[Statement]) -> impl Iterator<Item = [&str; 2]> {
    statements.iter().filter(|statement| is_flip_flop(statement)).map(|statement| [4, 0].map(|at| statement[at].as_str()))
}

/// The name that a statement defines, if it does.
fn defined(statement: &Statement) -> Option<&String> {
    match (statement[0].as_str(), statement[1].as_str()) {
        (_, "=") => Some(&statement[0]),
        ("INPUT", _) => Some(&statement[2]),
        _ => None,
    }
}

/// The same statements, some inputs as flip-flops of any data: of other lines and of the same, of inputs, of flip-flops and of themselves.
pub fn with_flip_flops(random: &mut Random, statements: &[Statement]) -> Vec<Statement> {
    let names: Vec<&String> = statements.iter().filter_map(defined).collect();
    let often = random.pick(&[1, 1, 2, 4]);
    let one = |statement: &Statement| match defined(statement) {
        Some(name) if statement[1] != "=" && random.once_in(often) => flip_flop(name, names[random.below(names.len())]),
        _ => statement.clone(),
    };
    statements.iter().map(one).collect()
}
