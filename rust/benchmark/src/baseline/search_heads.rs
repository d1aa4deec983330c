//! The test search that decides at head lines: it counts how often lines are read, marks where they stand, and searches in a copy of the circuit in
//! which head lines are inputs and the other free lines of no kind, so that they are X. A test's trees are set in one pass, from the highest line
//! down.
use super::gates::Gates;
use super::search::{check_search, search_from};
use super::simulate::Fault;
use super::{pins, report, word, SELECTOR};

const OTHER: u8 = 0;
const HEAD: u8 = 1;
const BOUND: u8 = 2;

/// No kind of a gate.
const NONE: u8 = SELECTOR + 1;

/// What pin s of line k reads.
pub fn source(circuit: &[u8], k: usize, s: usize) -> usize {
    word(circuit, 8 * k + 2 * s)
}

/// How many pins read each line, as far as 2.
pub fn count_reads(circuit: &[u8], reads: &mut [u8]) {
    for k in 0..reads.len() {
        for s in 1..=pins(circuit[8 * k]) {
            let from = source(circuit, k, s);
            reads[from] = 2.min(reads[from] + 1);
        }
    }
}

/// Marks bound lines, and below them the free lines that they read; `marks` comes as all 0. A line that branches is read by bound lines alone.
fn mark(circuit: &[u8], reads: &[u8], marks: &mut [u8]) {
    for k in 0..marks.len() {
        let sources = 1..=pins(circuit[8 * k]);
        let is_bound = sources.clone().any(|s| reads[source(circuit, k, s)] == 2 || marks[source(circuit, k, s)] == BOUND);
        if is_bound {
            marks[k] = BOUND;
            for s in sources {
                let from = source(circuit, k, s);
                marks[from] = marks[from].max(HEAD);
            }
        }
    }
}

/// Makes head lines inputs, and lines before them such as are X and no outputs. Gives the number of head lines.
fn cut(circuit: &mut [u8], marks: &[u8]) -> usize {
    let mut heads = 0;
    for (record, &mark) in circuit.chunks_exact_mut(8).zip(marks) {
        if mark != BOUND {
            record[2..].fill(0);
            record[0] = if mark == HEAD { 0 } else { NONE };
            record[1] &= mark;
            heads += usize::from(mark == HEAD);
        }
    }
    heads
}

/// What stands at the pins of a gate of this kind that is to have the value v.
fn pin_values(kind: u8, v: u8) -> [u8; 3] {
    match (kind, v) {
        (_, 2) => [2, 2, 2],
        (1, _) => [v, 2, 2],
        (2, _) => [1 - v, 2, 2],
        (3, 0) | (4, 1) => [0, 2, 2],
        (3, _) | (4, _) => [1, 1, 2],
        (5, 1) | (6, 0) => [1, 2, 2],
        (5, _) | (6, _) => [0, 0, 2],
        (7, _) => [0, v, 2],
        (8, _) => [0, 1 - v, 2],
        _ => [v, 2, 0],
    }
}

/// Sets the trees of a node, and gives the test what they have at the inputs.
fn set_trees(circuit: &[u8], marks: &[u8], node: &[u8], values: &mut [u8], test: &mut [u8]) {
    let heads = (0..marks.len()).filter(|&k| marks[k] == HEAD);
    heads.zip(node).for_each(|(k, &v)| values[k] = v);
    for k in (0..marks.len()).rev().filter(|&k| marks[k] != BOUND) {
        let at_pins = pin_values(circuit[8 * k], values[k]);
        for s in 1..=pins(circuit[8 * k]) {
            values[source(circuit, k, s)] = at_pins[s - 1];
        }
    }
    let inputs = (0..marks.len()).filter(|&k| circuit[8 * k] == 0);
    inputs.zip(test).for_each(|(k, v)| *v = values[k]);
}

fn search<G: Gates>(circuit: &[u8], fault: &[u8], budget: u64, test: &mut [u8], work: &mut [u8]) -> Result<[u64; 3], (u32, usize)> {
    let [n, inputs] = check_search(circuit, fault, test.len(), work.len())?;
    let fault = Fault::read(fault, 0);
    let (mut reads, mut marks) = ([0; 2048], [OTHER; 2048]);
    let marks = &mut marks[..n];
    count_reads(circuit, &mut reads[..n]);
    mark(circuit, &reads[..n], marks);
    let served = marks[fault.line] == BOUND || marks[fault.line] == HEAD && fault.site == 0;
    if !served {
        let [outcome, nodes] = search_from::<G>(circuit, fault, &[2; 64][..inputs], budget, test, work);
        return Ok([outcome, nodes, 0]);
    }
    let mut copy = [0; 16_384];
    let copy = &mut copy[..8 * n];
    copy.copy_from_slice(circuit);
    let heads = cut(copy, marks);
    let mut node = [2; 64];
    let node = &mut node[..heads];
    let [outcome, nodes] = search_from::<G>(copy, fault, &[2; 64][..heads], budget, node, work);
    if outcome == 0 {
        set_trees(circuit, marks, node, &mut [2; 2048][..n], test);
    }
    Ok([outcome, nodes, 0])
}

pub fn enter<G: Gates>(circuit: &[u8], fault: &[u8], budget: u64, test: &mut [u8], work: &mut [u8], answer: &mut [u8; 32]) -> u32 {
    match search::<G>(circuit, fault, budget, test, work) {
        Ok(numbers) => report(0, numbers, answer),
        Err((number, place)) => report(number, [place as u64, 0, 0], answer),
    }
}

#[cfg(test)]
mod tests {
    use super::*;
    use crate::baseline::gates::{Branches, Table};
    use cases::{circuits, damage, drawn, faults, placed, trees, Random};
    use second::entries::{self, Seen};

    /// A circuit, a fault, a budget, and what is lent.
    type Given = (Vec<u8>, Vec<u8>, u64, Vec<u8>, Vec<u8>);

    fn lend(random: &mut Random, circuit: Vec<u8>, fault: Vec<u8>) -> Given {
        let budget = random.pick(&[0, 1, 2, 5, 20, 300]);
        let (test, work) = (random.junk(faults::inputs(&circuit)), random.junk(circuit.len() / 4));
        (circuit, fault, budget, test, work)
    }

    fn sound(random: &mut Random) -> Given {
        let circuit = random.pick(&[circuits::few_inputs, trees::few_inputs, trees::many_inputs])(random);
        let fault = faults::some(random, &circuit, 1);
        lend(random, circuit, fault)
    }

    /// One thing or several are wrong.
    fn damaged(random: &mut Random) -> Given {
        let mut given = sound(random);
        damage::several(random, &mut given, |random, (circuit, fault, _, test, work)| match random.below(4) {
            0 => damage::circuit(random, circuit),
            1 => damage::faults(random, fault, circuit.len() / 8),
            2 => test.resize(damage::size(random, test.len()), 7),
            _ => work.resize(damage::size(random, work.len()), 7),
        });
        given
    }

    fn seen<G: Gates>((circuit, fault, budget, test, work): &Given) -> Seen {
        let (mut test, mut work, mut answer) = (test.clone(), work.clone(), [7; 32]);
        let returned = enter::<G>(circuit, fault, *budget, &mut test, &mut work, &mut answer);
        Seen { returned, answer: answer.to_vec(), lent: vec![test.into(), work.into()] }
    }

    #[test]
    fn answers_as_the_second_program_does() {
        let random = &mut Random::new(3);
        let by_hand = placed::every()
            .into_iter()
            .flat_map(|one| faults::every(&one.circuit).into_iter().map(move |fault| (one.circuit.clone(), fault)));
        let by_hand = by_hand.map(|(circuit, fault)| lend(random, circuit, fault.to_vec()));
        for given in drawn(1, 10_000, sound).chain(drawn(2, 5_000, damaged)).chain(by_hand) {
            let (circuit, fault, budget, test, work) = &given;
            let said = entries::search_heads(circuit, fault, *budget, test, work, &[7; 32]);
            assert_eq!(seen::<Branches>(&given), said, "{given:?}");
            assert_eq!(seen::<Table>(&given), said, "{given:?}");
        }
    }
}
