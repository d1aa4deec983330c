//! The test search.
use crate::circuit::Circuit;
use crate::fault::Fault;
use crate::pattern::Pattern;
use crate::refusal::{ensure, Refusal};
use crate::values::{byte, Value};

/// How a search ends.
#[derive(Clone, Copy, Debug, PartialEq, Eq)]
pub enum Outcome {
    Test = 0,
    Redundant = 1,
    GivenUp = 2,
}

/// What a search has found, and the last node that it looked at.
#[derive(Clone, Debug, PartialEq, Eq)]
pub struct Search {
    pub outcome: Outcome,
    pub nodes: u64,
    pub last: Option<Pattern>,
}

/// What a node says about the fault.
#[derive(Clone, Copy, Debug, PartialEq, Eq)]
pub enum Look {
    /// At some output both values are known and differ.
    Fails,
    /// At every output both are known and equal.
    Settled,
    /// Neither.
    Open,
}

impl Look {
    /// What is said by the good and faulty values at some outputs: each of these is looked at, known or not.
    pub fn at(outputs: impl Iterator<Item = (Value, Value)>) -> Look {
        let both: Vec<_> = outputs.map(|(good, faulty)| good.zip(faulty)).collect();
        if both.iter().flatten().any(|(good, faulty)| good != faulty) {
            Look::Fails
        } else if both.iter().all(Option::is_some) {
            Look::Settled
        } else {
            Look::Open
        }
    }
}

impl Circuit {
    /// What a node says: every output is looked at.
    pub fn look(&self, node: &[Value], fault: Fault) -> Look {
        let (good, faulty) = (self.values(node, None), self.values(node, Some(fault)));
        Look::at(self.outputs().map(|line| (good[line], faulty[line])))
    }
}

/// All nodes of so many values in the order of the search, each with what it says, as if no test ended it.
pub fn nodes<'a>(values: usize, look: impl Fn(&[Value]) -> Look + 'a) -> impl Iterator<Item = (Pattern, Look)> + 'a {
    let mut waiting = vec![vec![None; values]];
    std::iter::from_fn(move || {
        let node = waiting.pop()?;
        let look = look(&node);
        if look == Look::Open {
            let first = node.iter().position(Option::is_none).expect("without X every output is known");
            for value in [true, false] {
                let mut side = node.clone();
                side[first] = Some(value);
                waiting.push(side);
            }
        }
        Some((node, look))
    })
}

/// Looks at no more than `budget` of these nodes.
pub fn search_nodes(nodes: impl Iterator<Item = (Pattern, Look)>, budget: u64) -> Search {
    let mut search = Search { outcome: Outcome::Redundant, nodes: 0, last: None };
    for (node, look) in nodes {
        if search.nodes == budget {
            return Search { outcome: Outcome::GivenUp, ..search };
        }
        search = Search { nodes: search.nodes + 1, last: Some(node), ..search };
        if look == Look::Fails {
            return Search { outcome: Outcome::Test, ..search };
        }
    }
    search
}

/// The search over the patterns of a circuit.
pub fn search_circuit(circuit: &Circuit, fault: Fault, budget: u64) -> Search {
    search_nodes(nodes(circuit.inputs().count(), |node| circuit.look(node, fault)), budget)
}

/// What the search leaves in lent memory, where it writes.
pub struct Searched {
    pub outcome: Outcome,
    pub nodes: u64,
    pub test: Option<Vec<u8>>,
    pub work: Option<Vec<u8>>,
}

impl Search {
    /// What it leaves, where its last node makes this work memory and, if it is the test, this pattern.
    pub fn leaves(self, work: impl Fn(&Pattern) -> Vec<u8>, pattern: impl Fn(&Pattern) -> Pattern) -> Searched {
        let Search { outcome, nodes, last } = self;
        let work = last.as_ref().map(work);
        let test = last.filter(|_| outcome == Outcome::Test).map(|node| pattern(&node).iter().map(byte).collect());
        Searched { outcome, nodes, test, work }
    }
}

/// The search for a fault of a circuit, and what it leaves.
pub fn searched(circuit: &Circuit, fault: Fault, budget: u64) -> Searched {
    search_circuit(circuit, fault, budget).leaves(|node| circuit.work(node, fault), Pattern::clone)
}

/// Reads what a search for one fault is given, lent a test buffer and a work memory of these sizes.
pub fn read(circuit: &[u8], fault: &[u8], test: usize, work: usize) -> Result<(Circuit, Fault), Refusal> {
    let circuit = Circuit::read(circuit)?;
    let fault = Fault::read_all(&circuit, fault, 1)?[0];
    ensure(test == circuit.inputs().count(), 10)?;
    ensure(work == 2 * circuit.lines.len(), 10)?;
    Ok((circuit, fault))
}

/// The test search.
pub fn search(circuit: &[u8], fault: &[u8], budget: u64, test: usize, work: usize) -> Result<Searched, Refusal> {
    let (circuit, fault) = read(circuit, fault, test, work)?;
    Ok(searched(&circuit, fault, budget))
}
