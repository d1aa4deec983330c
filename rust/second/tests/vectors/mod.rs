//! What complete input vectors do, evaluated here on its own, over Booleans.
#![allow(dead_code)] // each test asks for some of it
use cases::{circuits, faults, Random};
use second::circuit::{Circuit, Gate};
use second::{Fault, Site, Value};

/// A line's value, by asking for those that it reads.
pub fn truth(circuit: &Circuit, vector: &[bool], fault: Option<Fault>, line: usize) -> bool {
    let stuck = |site| fault.filter(|fault| fault.line == line && fault.site == site).map(|fault| fault.stuck);
    let pin = |pin, source| stuck(Site::Pin(pin)).unwrap_or_else(|| truth(circuit, vector, fault, source));
    stuck(Site::Line).unwrap_or_else(|| match circuit.lines[line].gate {
        Gate::Input => vector[circuit.inputs().position(|input| input == line).expect("an input")],
        Gate::Buffer(a) => pin(1, a),
        Gate::Not(a) => !pin(1, a),
        Gate::And(a, b) => pin(1, a) && pin(2, b),
        Gate::Nand(a, b) => !(pin(1, a) && pin(2, b)),
        Gate::Or(a, b) => pin(1, a) || pin(2, b),
        Gate::Nor(a, b) => !(pin(1, a) || pin(2, b)),
        Gate::Xor(a, b) => pin(1, a) != pin(2, b),
        Gate::Xnor(a, b) => pin(1, a) == pin(2, b),
        Gate::Selector(a, b, select) => {
            if pin(3, select) {
                pin(2, b)
            } else {
                pin(1, a)
            }
        }
    })
}

/// Some output differs.
pub fn detects(circuit: &Circuit, vector: &[bool], fault: Fault) -> bool {
    circuit.outputs().any(|line| truth(circuit, vector, None, line) != truth(circuit, vector, Some(fault), line))
}

/// All fillings of the X's.
pub fn fillings(pattern: &[Value]) -> Vec<Vec<bool>> {
    pattern.iter().fold(vec![vec![]], |done, value| {
        let known = value.map_or(vec![false, true], |value| vec![value]);
        done.iter().flat_map(|start| known.iter().map(move |&value| [&start[..], &[value]].concat())).collect()
    })
}

/// A circuit of so many lines at most, and all its faults.
pub fn tiny_of(random: &mut Random, most: usize) -> (Circuit, Vec<Fault>) {
    let lines = 1 + random.below(most);
    let inputs = 1 + random.below(lines.min(4));
    with_faults(&circuits::circuit(random, lines, inputs))
}

/// A circuit that is read, and all its faults.
pub fn with_faults(bytes: &[u8]) -> (Circuit, Vec<Fault>) {
    let circuit = Circuit::read(bytes).expect("sound");
    let faults = Fault::read_all(&circuit, &faults::every(bytes).concat(), 256).expect("sound");
    (circuit, faults)
}

/// Every pattern of so many values.
pub fn every_pattern(inputs: usize) -> Vec<Vec<Value>> {
    (0..inputs).fold(vec![vec![]], |done, _| {
        done.iter().flat_map(|start| [Some(false), Some(true), None].map(|value| [&start[..], &[value]].concat())).collect()
    })
}
