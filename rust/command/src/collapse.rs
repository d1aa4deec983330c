//! Faults that no test can tell apart, as textbooks collapse them: within a gate, and along a wire that nothing else reads.
use crate::circuit::Circuit;
use crate::fault::Fault;
use crate::kind::{Kind, MOST_PINS};
use std::collections::HashSet;

/// The first of each class of equivalent faults. Lines are equivalent through pins also where the list has none.
pub fn collapsed(circuit: &Circuit, faults: Vec<Fault>) -> Vec<Fault> {
    let mut classes = Classes::new(circuit.size());
    for line in 0..circuit.size() {
        join_gate(circuit, line, &mut classes);
    }
    for (line, pin) in wires(circuit) {
        for value in [false, true] {
            classes.join(Fault { line, site: 0, value }, Fault { value, ..pin });
        }
    }
    let mut seen = HashSet::new();
    faults.into_iter().filter(|&fault| seen.insert(classes.of(fault))).collect()
}

/// The values that settle the gate's at whichever pin they stand alone. A selector has none: its other source may still be given, and a select
/// leaves the value of a source open.
fn settling(kind: Kind) -> &'static [bool] {
    match kind {
        Kind::Buffer | Kind::Not => &[false, true],
        Kind::And | Kind::Nand => &[false],
        Kind::Or | Kind::Nor => &[true],
        Kind::Input | Kind::Xor | Kind::Xnor | Kind::Selector => &[],
    }
}

/// A pin stuck at what settles the gate is the line stuck at what it settles.
fn join_gate(circuit: &Circuit, line: usize, classes: &mut Classes) {
    let kind = circuit.kind(line);
    for site in 1..=kind.pins() {
        for &value in settling(kind) {
            classes.join(Fault { line, site, value }, Fault { line, site: 0, value: value != kind.inverts() });
        }
    }
}

/// The lines that one pin alone reads and that are no outputs, each with that pin.
fn wires(circuit: &Circuit) -> Vec<(usize, Fault)> {
    let mut readers: Vec<Vec<Fault>> = vec![Vec::new(); circuit.size()];
    for line in 0..circuit.size() {
        for (site, source) in (1..).zip(circuit.sources(line)) {
            readers[source].push(Fault { line, site, value: false });
        }
    }
    let wire = |(line, readers): (usize, Vec<Fault>)| match readers[..] {
        [pin] if !circuit.is_output(line) => Some((line, pin)),
        _ => None,
    };
    readers.into_iter().enumerate().filter_map(wire).collect()
}

/// The faults that a line may have: it and each of its pins at 0 and at 1.
const MOST_FAULTS: usize = 2 * (1 + MOST_PINS);

/// Classes of faults, each known by one of its members: from every other a way leads there.
struct Classes(Vec<usize>);

impl Classes {
    /// Each fault of so many lines in a class of its own.
    fn new(lines: usize) -> Classes {
        Classes((0..MOST_FAULTS * lines).collect())
    }

    /// The member by which the class of a fault is known.
    fn of(&mut self, fault: Fault) -> usize {
        let mut at = MOST_FAULTS * fault.line + 2 * fault.site + usize::from(fault.value);
        while self.0[at] != at {
            // the way becomes shorter as it is gone
            self.0[at] = self.0[self.0[at]];
            at = self.0[at];
        }
        at
    }

    fn join(&mut self, one: Fault, other: Fault) {
        let (one, other) = (self.of(one), self.of(other));
        self.0[one] = other;
    }
}
