//! The test search that decides at head lines. Document 001 calls the lines bound that can be reached from a branch, and head lines the free
//! ones next to them; before each head line lies a tree.
//!
//! Nothing is cut off here: at a node the head lines are given their values, other free lines X, and the gates of the bound lines make the
//! rest. A tree is set from its head line down.
use crate::circuit::{Circuit, Gate};
use crate::fault::{Fault, Site};
use crate::pattern::Pattern;
use crate::refusal::Refusal;
use crate::search::{self, nodes, read, search_nodes, Look, Searched};
use crate::values::{bytes, Value};
use std::collections::HashSet;

/// Where a line stands.
#[derive(Clone, Copy, Debug, PartialEq, Eq)]
pub enum Place {
    /// It can be reached from a branch.
    Bound,
    /// It is free, and a bound gate reads it or it branches.
    Head,
    /// It is free, and neither.
    Other,
}

/// For each line the gates that read it, once for each pin that does.
pub type Readers = Vec<Vec<usize>>;

impl Circuit {
    pub fn readers(&self) -> Readers {
        let mut readers = vec![vec![]; self.lines.len()];
        for (number, line) in self.lines.iter().enumerate() {
            line.gate.sources().into_iter().for_each(|source| readers[source].push(number));
        }
        readers
    }
}

/// The lines that can be reached from a branch of a line which two pins or more read.
fn bound(readers: &Readers) -> HashSet<usize> {
    let mut waiting: Vec<usize> = readers.iter().filter(|pins| pins.len() > 1).flatten().copied().collect();
    let mut reached = HashSet::new();
    while let Some(line) = waiting.pop() {
        if reached.insert(line) {
            waiting.extend(&readers[line]);
        }
    }
    reached
}

/// Where each line stands that is read so.
pub fn places(readers: &Readers) -> Vec<Place> {
    let bound = bound(readers);
    let place = |(line, pins): (usize, &Vec<usize>)| match bound.contains(&line) {
        true => Place::Bound,
        false if pins.len() > 1 || pins.iter().any(|gate| bound.contains(gate)) => Place::Head,
        false => Place::Other,
    };
    readers.iter().enumerate().map(place).collect()
}

/// What stands at the pins of a gate, in order, so that it makes this value. Where the first source alone can force it the others are X.
pub fn pins(gate: Gate, value: bool) -> [Value; 3] {
    let alone = |first| [Some(first), None, None];
    let otherwise = |chosen| match gate {
        Gate::Xor(..) | Gate::Xnor(..) => [Some(false), Some(chosen), None],
        Gate::Selector(..) => [Some(chosen), None, Some(false)],
        _ => [Some(chosen), Some(chosen), None],
    };
    let makes = |pins: &[Value; 3]| gate.over(|pin, _| pins[pin - 1]).value() == Some(value);
    [alone(false), alone(true), otherwise(false), otherwise(true)].into_iter().find(makes).expect("a gate makes either value")
}

/// A circuit, and where each of its lines stands.
pub struct Placed<'a> {
    pub circuit: &'a Circuit,
    pub places: Vec<Place>,
}

impl<'a> Placed<'a> {
    pub fn new(circuit: &'a Circuit) -> Placed<'a> {
        Placed { circuit, places: places(&circuit.readers()) }
    }

    /// The numbers of the head lines, in line order.
    pub fn heads(&self) -> impl Iterator<Item = usize> + '_ {
        (0..self.places.len()).filter(|&line| self.places[line] == Place::Head)
    }

    /// The fault is at a bound line or at one of its pins, or a head line itself is stuck.
    pub fn serves(&self, fault: Fault) -> bool {
        match self.places[fault.line] {
            Place::Bound => true,
            Place::Head => fault.site == Site::Line,
            Place::Other => false,
        }
    }

    /// The values of all lines at a node, which has one for each head line, where gates go by this rule.
    pub fn values(&self, rule: fn(Gate<Value>) -> Value, node: &[Value], fault: Option<Fault>) -> Vec<Value> {
        let mut node = node.iter().copied();
        let given = |line: usize| match self.places[line] {
            Place::Bound => None,
            Place::Head => Some(node.next().expect("a value for each head line")),
            Place::Other => Some(None),
        };
        self.circuit.values_given(rule, given, fault)
    }

    /// The good and the faulty values.
    fn halves(&self, node: &[Value], fault: Fault) -> [Vec<Value>; 2] {
        [None, Some(fault)].map(|fault| self.values(Gate::value, node, fault))
    }

    /// The outputs that are looked at.
    pub fn outputs(&self) -> impl Iterator<Item = usize> + '_ {
        self.circuit.outputs().filter(|&line| self.places[line] != Place::Other)
    }

    fn look(&self, node: &[Value], fault: Fault) -> Look {
        let [good, faulty] = self.halves(node, fault);
        Look::at(self.outputs().map(|line| (good[line], faulty[line])))
    }

    /// The pattern that gives the head lines a node's values, where pins are set so.
    pub fn pattern(&self, pins: Setting, node: &[Value]) -> Pattern {
        let mut values = vec![None; self.places.len()];
        self.heads().zip(node).for_each(|(head, &value)| self.set(pins, head, value, &mut values));
        self.circuit.inputs().map(|line| values[line]).collect()
    }

    /// Puts a value on a line, and on the lines of its tree what makes it.
    fn set(&self, pins: Setting, line: usize, value: Value, values: &mut [Value]) {
        values[line] = value;
        let gate = self.circuit.lines[line].gate;
        if let (Some(value), true) = (value, gate != Gate::Input) {
            gate.sources().into_iter().zip(pins(gate, value)).for_each(|(source, pin)| self.set(pins, source, pin, values));
        }
    }
}

/// What stands at the pins of a gate so that it makes a value.
pub type Setting = fn(Gate, bool) -> [Value; 3];

/// The search over head lines, where it serves the fault, and else over patterns; and what it leaves.
pub fn searched(circuit: &Circuit, fault: Fault, budget: u64) -> Searched {
    let placed = Placed::new(circuit);
    if !placed.serves(fault) {
        return search::searched(circuit, fault, budget);
    }
    let search = search_nodes(nodes(placed.heads().count(), |node| placed.look(node, fault)), budget);
    let work = |node: &Pattern| {
        let [good, faulty] = placed.halves(node, fault);
        bytes(&good, &faulty)
    };
    search.leaves(work, |node| placed.pattern(pins, node))
}

/// The test search that decides at head lines, lent a test buffer and a work memory of these sizes.
pub fn search_heads(circuit: &[u8], fault: &[u8], budget: u64, test: usize, work: usize) -> Result<Searched, Refusal> {
    let (circuit, fault) = read(circuit, fault, test, work)?;
    Ok(searched(&circuit, fault, budget))
}
