//! Circuits in which trees, whose lines are read once at most, grow into lines that are read more often.
use crate::circuits::{gate, need_output, source, sources, AND, BUFFER, INPUT, NOT, SELECTOR, XNOR, XOR};
use crate::Random;

/// So many inputs; gates that read what nothing has read before, as far as there is enough of it; then gates that read any of these and of the
/// roots that are left, some of which stay unread. The lines stand in any order that a circuit may have.
pub fn circuit(random: &mut Random, inputs: usize, in_trees: usize, above: usize) -> Vec<u8> {
    let favourite = 1 + random.below(SELECTOR.into()) as u8;
    let strict = random.once_in(4);
    let kind = |random: &mut Random| if strict { favourite } else { 1 + random.below(SELECTOR.into()) as u8 };
    let sparse = random.pick(&[1, 2, 5, 20]);
    let mut circuit = vec![];
    (0..inputs).for_each(|_| circuit.extend(gate(INPUT, random.once_in(3 * sparse), [0; 3])));
    let mut unread: Vec<usize> = (0..inputs).collect();
    for _ in 0..in_trees {
        let kind = Some(kind(random)).filter(|&kind| sources(kind) <= unread.len()).unwrap_or(NOT);
        let mut read = [0; 3];
        read[..sources(kind)].fill_with(|| unread.swap_remove(random.below(unread.len())));
        unread.push(circuit.len() / 8);
        circuit.extend(gate(kind, random.once_in(3 * sparse), read));
    }
    let left_out = random.below(unread.len()) / 2;
    let mut readable = unread.split_off(left_out);
    for _ in 0..above {
        let read = [(); 3].map(|_| random.pick(&readable));
        readable.push(circuit.len() / 8);
        circuit.extend(gate(kind(random), random.once_in(sparse), read));
    }
    need_output(random, &mut circuit);
    reordered(random, &circuit)
}

/// The lines that the pins of a record read.
fn read_by(record: &[u8]) -> impl Iterator<Item = usize> + '_ {
    (1..=sources(record[0])).map(|pin| source(record, pin))
}

/// The same circuit with its lines in another order.
pub fn reordered(random: &mut Random, circuit: &[u8]) -> Vec<u8> {
    let records: Vec<&[u8]> = circuit.chunks_exact(8).collect();
    let read = |line: usize| read_by(records[line]);
    let mut numbers = vec![None; records.len()];
    let mut waiting: Vec<usize> = (0..records.len()).collect();
    let mut bytes = vec![];
    while !waiting.is_empty() {
        // the lowest that waits has what it reads, and so may others
        let first = random.below(waiting.len());
        let ready = |place: &usize| read(waiting[*place]).all(|source| numbers[source].is_some());
        let place = (first..waiting.len()).chain(0..first).find(ready).expect("what the first one reads is placed");
        let line = waiting.remove(place);
        let mut sources = [0; 3];
        read(line).zip(&mut sources).for_each(|(source, number)| *number = numbers[source].expect("placed"));
        numbers[line] = Some(bytes.len() / 8);
        bytes.extend(gate(records[line][0], records[line][1] == 1, sources));
    }
    bytes
}

/// Seven inputs at most, so that no search is long.
pub fn few_inputs(random: &mut Random) -> Vec<u8> {
    let (inputs, in_trees, above) = (1 + random.below(7), random.below(10), random.below(10));
    circuit(random, inputs, in_trees, above)
}

/// Up to 64 inputs in so many trees that few head lines are left.
pub fn many_inputs(random: &mut Random) -> Vec<u8> {
    let inputs = 20 + random.below(45);
    let in_trees = inputs + random.below(inputs);
    let above = 1 + random.below(12);
    circuit(random, inputs, in_trees, above)
}

/// Puts a tree behind a circuit and gives its root: gates of one kind which read, at these pins, gates again, down to this depth, and inputs at
/// the others.
fn grow(circuit: &mut Vec<u8>, kind: u8, depth: usize, deep: &[usize]) -> usize {
    let kind = if depth == 0 { INPUT } else { kind };
    let mut read = [0; 3];
    for pin in 1..=sources(kind) {
        read[pin - 1] = grow(circuit, kind, if deep.contains(&pin) { depth - 1 } else { 0 }, deep);
    }
    circuit.extend(gate(kind, false, read));
    circuit.len() / 8 - 1
}

/// Puts gates behind a circuit that tell whether two lines, or two pins at one line, differ, whether they are equal, and both, which is always
/// 0 and the last line. All are outputs.
fn compare(circuit: &mut Vec<u8>, first: usize, second: usize) {
    let next = circuit.len() / 8;
    circuit.extend(gate(XOR, true, [first, second, 0]));
    circuit.extend(gate(XNOR, true, [first, second, 0]));
    circuit.extend(gate(AND, true, [next, next + 1, 0]));
}

/// A tree of one kind, of this depth along these pins, into a head line, which is then read by a buffer and a NOT and by what compares these.
pub fn one_tree(kind: u8, depth: usize, deep: &[usize]) -> Vec<u8> {
    let mut circuit = vec![];
    let head = grow(&mut circuit, kind, depth, deep);
    circuit.extend(gate(BUFFER, true, [head, 0, 0]));
    circuit.extend(gate(NOT, true, [head, 0, 0]));
    compare(&mut circuit, head + 1, head + 2);
    circuit
}

/// Two full trees of one kind, of this depth, into two head lines, which are compared.
pub fn two_trees(kind: u8, depth: usize) -> Vec<u8> {
    let mut circuit = vec![];
    let [first, second] = [(); 2].map(|_| grow(&mut circuit, kind, depth, &[1, 2, 3]));
    compare(&mut circuit, first, second);
    circuit
}

/// A tree of each kind, of each depth up to this one, along each pin, and in each case that has 64 inputs at most along all pins at once.
pub fn every_kind(deepest: usize) -> Vec<Vec<u8>> {
    let along = |kind: u8| (1..=sources(kind)).map(|pin| vec![pin]).chain([vec![1, 2, 3]]);
    let trees = (BUFFER..=SELECTOR).flat_map(|kind| along(kind).map(move |deep| (kind, deep)));
    let deep = trees.flat_map(|(kind, deep)| (0..=deepest).map(move |depth| one_tree(kind, depth, &deep)));
    deep.filter(|circuit| crate::faults::inputs(circuit) <= 64).collect()
}
