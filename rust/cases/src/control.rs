//! Circuits whose lines are harder and harder to set, and how many halvings of 1 give their chances, counted by hand.
use crate::circuits::{
    always_0, example_a, gate, parity, record, selecting, selector, sources, AND, BUFFER, INPUT, NAND, NOR, NOT, OR, SELECTOR, XNOR, XOR,
};

/// A circuit, and for each of its last lines how many halvings of 1 give the chance of 1, and how many the chance of 0.
pub struct Counted {
    pub name: &'static str,
    pub circuit: Vec<u8>,
    pub halvings: Vec<[u32; 2]>,
}

fn counted(name: &'static str, circuit: Vec<u8>, halvings: &[[u32; 2]]) -> Counted {
    Counted { name, circuit, halvings: halvings.to_vec() }
}

fn lines(circuit: &[u8]) -> usize {
    circuit.len() / 8
}

/// A chain of so many lines, an input and then gates of one kind, each of which reads the one below with all its pins. The last is an output.
pub fn chain(kind: u8, lines: usize) -> Vec<u8> {
    let line = |line: usize| gate(if line == 0 { INPUT } else { kind }, line + 1 == lines, [line.saturating_sub(1); 3]);
    (0..lines).flat_map(line).collect()
}

/// Puts so many pairs of buffers behind a circuit, the first over a line and each other over one of the pair before, so that each pair has
/// one halving more. Gives the last.
fn harder(circuit: &mut Vec<u8>, from: usize, by: u32) -> usize {
    (0..by).fold(from, |line, _| {
        circuit.extend(record(BUFFER, false, line, 0).repeat(2));
        lines(circuit) - 1
    })
}

/// Puts lines behind a circuit of which the last has so many halvings for 1 and for 0: an AND with a new input leaves none for 0, an OR none for 1.
fn of_halvings(circuit: &mut Vec<u8>, [one, zero]: [u32; 2]) -> usize {
    circuit.extend(record(INPUT, false, 0, 0));
    let input = lines(circuit) - 1;
    let line = harder(circuit, input, one.abs_diff(zero));
    circuit.extend(record(INPUT, false, 0, 0));
    circuit.extend(record(if one > zero { AND } else { OR }, false, line, lines(circuit) - 1));
    let line = lines(circuit) - 1;
    harder(circuit, line, one.min(zero))
}

/// A gate of each kind, with pins that see these halvings. All are outputs, and read the same lines: the first two of these branch, the third is the
/// select of the one selector.
pub fn every_kind([first, second, select]: [[u32; 2]; 3]) -> Vec<u8> {
    let mut circuit = vec![];
    let read = [first.map(|seen| seen - 1), second.map(|seen| seen - 1), select].map(|halvings| of_halvings(&mut circuit, halvings));
    (BUFFER..=SELECTOR).for_each(|kind| circuit.extend(gate(kind, true, read)));
    circuit
}

/// A gate of one kind over lines that no other pin reads, so that its pins see these halvings.
pub fn one_gate(kind: u8, pins: [[u32; 2]; 3]) -> Vec<u8> {
    let (mut circuit, mut read) = (vec![], [0; 3]);
    read.iter_mut().zip(pins).take(sources(kind)).for_each(|(line, halvings)| *line = of_halvings(&mut circuit, halvings));
    circuit.extend(gate(kind, true, read));
    circuit
}

/// Pairs of buffers up to a line of so many halvings, and one gate more, an output, that reads it with all its pins.
pub fn at_the_end(kind: u8, halvings: u32) -> Vec<u8> {
    let mut circuit = record(INPUT, false, 0, 0).to_vec();
    let line = harder(&mut circuit, 0, halvings);
    circuit.extend(gate(kind, true, [line; 3]));
    circuit
}

/// The circuit that does with 0 and 1 exchanged what this one does, so that the chances of its lines are exchanged.
pub fn dual(circuit: &[u8]) -> Vec<u8> {
    let mut dual = circuit.to_vec();
    for record in dual.chunks_exact_mut(8) {
        record[0] = match record[0] {
            AND => OR,
            OR => AND,
            NAND => NOR,
            NOR => NAND,
            XOR => XNOR,
            XNOR => XOR,
            kind => kind,
        };
        if record[0] == SELECTOR {
            record[2..6].rotate_left(2);
        }
    }
    dual
}

/// What is counted by hand: small circuits, each kind over pins that all see something else, and what comes near the most halvings that a line has.
pub fn every() -> Vec<Counted> {
    let input = |output| record(INPUT, output, 0, 0);
    let over = |inputs: usize, gates: &[[u8; 8]]| [input(false).repeat(inputs), gates.concat()].concat();
    let nand = |output, first, second| record(NAND, output, first, second);
    let c17 = [nand(false, 0, 2), nand(false, 2, 3), nand(false, 1, 6), nand(false, 6, 4), nand(true, 5, 7), nand(true, 7, 8)];
    let (p, q, select) = ([1, 4], [9, 2], [3, 6]);
    vec![
        counted("one tree", example_a(), &[[0, 0]; 5]),
        counted("a tree of 64 inputs", parity(), &[[0, 0]; 127]),
        counted("one line", input(true).to_vec(), &[[0, 0]]),
        counted("c17", over(5, &c17), &[[0, 0], [0, 1], [0, 1], [0, 1], [0, 1], [1, 1], [1, 1]]),
        counted("always 0", always_0(), &[[0, 0], [1, 1], [2, 1]]),
        counted("a gate that reads a line with both pins", over(1, &[record(AND, true, 0, 0)]), &[[0, 0], [2, 1]]),
        counted("the same, an OR", over(1, &[record(OR, true, 0, 0)]), &[[0, 0], [1, 2]]),
        counted("the same, an XOR, and 1 is as likely as 0", over(1, &[record(XOR, true, 0, 0)]), &[[0, 0], [2, 2]]),
        counted("a selector that reads its select as a source too", selecting(), &[[0, 0], [0, 0], [1, 1]]),
        counted("one line at all pins of a selector", over(1, &[selector(true, 0, 0, 0)]), &[[0, 0], [2, 2]]),
        counted("being an output is no reading", [input(true), record(NOT, true, 0, 0)].concat(), &[[0, 0], [0, 0]]),
        counted(
            "what a kind lacks reads nothing, though line 0 stands there",
            over(3, &[record(NOT, false, 1, 0), record(BUFFER, true, 0, 0), record(AND, true, 2, 3)]),
            &[[0, 0]; 6],
        ),
        counted(
            "a branch of three, and the half is taken once",
            over(2, &[record(NOT, true, 0, 0), record(BUFFER, true, 0, 0), record(AND, true, 0, 1)]),
            &[[0, 0], [0, 0], [1, 1], [1, 1], [1, 0]],
        ),
        counted("a branch of 256", over(1, &[record(BUFFER, true, 0, 0); 256]), &[[1, 1]; 256]),
        counted("a branch of 257", over(1, &[record(BUFFER, true, 0, 0); 257]), &[[1, 1]; 257]),
        counted(
            "the select alone branches",
            over(3, &[selector(true, 0, 1, 2), record(NOT, true, 2, 0)]),
            &[[0, 0], [0, 0], [0, 0], [1, 1], [1, 1]],
        ),
        counted("every kind", every_kind([p, q, select]), &[[1, 4], [4, 1], [10, 2], [2, 10], [1, 6], [6, 1], [3, 6], [6, 3], [7, 5]]),
        counted(
            "every kind, with its sources exchanged",
            every_kind([q, p, select]),
            &[[9, 2], [2, 9], [10, 2], [2, 10], [1, 6], [6, 1], [3, 6], [6, 3], [4, 7]],
        ),
        counted(
            "every kind, with the second source the other way round",
            every_kind([p, [2, 9], select]),
            &[[1, 4], [4, 1], [3, 4], [4, 3], [1, 13], [13, 1], [6, 3], [3, 6], [5, 10]],
        ),
        counted("a product of 499 halvings", one_gate(AND, [[250, 7], [249, 3], [0; 2]]), &[[499, 3]]),
        counted("a product of 500", one_gate(NAND, [[250, 7], [250, 3], [0; 2]]), &[[3, 500]]),
        counted("a product of 501, and the floor", one_gate(OR, [[7, 250], [3, 251], [0; 2]]), &[[3, 500]]),
        counted("of two products one is above the floor", one_gate(XOR, [[250, 2], [252, 249], [0; 2]]), &[[254, 251]]),
        counted("of two products both are below it", one_gate(XNOR, [[251, 300], [251, 300], [0; 2]]), &[[500, 500]]),
        counted("where the select is 0 nothing is above it", one_gate(SELECTOR, [[201, 300], [4, 1], [200, 300]]), &[[204, 201]]),
        counted("pins that see 499 halvings", at_the_end(NOR, 498), &[[500, 499]]),
        counted("pins that see 500", at_the_end(NOR, 499), &[[500, 500]]),
        counted("pins that see 501, and the product is 1,002", at_the_end(AND, 500), &[[500, 500]]),
        counted("a chain of 500 ANDs", chain(AND, 501), &[[500, 498], [500, 499], [500, 500]]),
        counted("a chain of 502 ANDs", chain(AND, 503), &[[500, 500], [500, 500], [500, 500]]),
        counted("a chain of eight ORs", chain(OR, 9), &[[0, 0], [1, 2], [2, 6], [3, 14], [4, 30], [5, 62], [6, 126], [7, 254], [8, 500]]),
    ]
}
