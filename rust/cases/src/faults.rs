//! Faults and patterns for a circuit, as the bytes of their records.
use crate::circuits::{selectors, source, sources, INPUT, SELECTOR};
use crate::Random;
use std::collections::HashSet;

/// The record of a fault.
pub fn record(line: usize, site: u8, stuck: bool) -> [u8; 8] {
    let [low, high] = (line as u16).to_le_bytes();
    [low, high, site, stuck as u8, 0, 0, 0, 0]
}

/// Every fault of a circuit: each line and each pin, stuck at either value.
pub fn every(circuit: &[u8]) -> Vec<[u8; 8]> {
    let sites = circuit.chunks_exact(8).enumerate().flat_map(|(line, record)| (0..=sources(record[0])).map(move |site| (line, site as u8)));
    sites.flat_map(|(line, site)| [record(line, site, false), record(line, site, true)]).collect()
}

/// So many faults at any lines and pins; where there are selectors, often at a select, which is stuck at its pin or wherever it is read.
pub fn some(random: &mut Random, circuit: &[u8], count: usize) -> Vec<u8> {
    let kind = |line: usize| circuit[8 * line];
    let lines = circuit.len() / 8;
    let selectors: Vec<usize> = (0..lines).filter(|&line| kind(line) == SELECTOR).collect();
    let one = |_| {
        let (line, site) = if !selectors.is_empty() && random.once_in(4) {
            let line = random.pick(&selectors);
            random.pick(&[(line, 3), (source(&circuit[8 * line..], 3), 0)])
        } else {
            let line = random.below(lines);
            (line, random.below(sources(kind(line)) + 1))
        };
        record(line, site as u8, random.once_in(2))
    };
    (0..count).flat_map(one).collect()
}

/// So many patterns, in which X is rare, frequent or everything; where inputs are selects, often it stands at them alone.
pub fn patterns(random: &mut Random, circuit: &[u8], count: usize) -> Vec<u8> {
    let selects: HashSet<usize> = selectors(circuit).map(|[.., select]| select).collect();
    let is_input = |(_, record): &(usize, &[u8])| record[0] == INPUT;
    let inputs: Vec<bool> = circuit.chunks_exact(8).enumerate().filter(is_input).map(|(line, _)| selects.contains(&line)).collect();
    patterns_of(random, &inputs, count)
}

/// The same for these inputs, of which some are selects.
pub fn patterns_of(random: &mut Random, inputs: &[bool], count: usize) -> Vec<u8> {
    let known = random.pick(&[0, 1, 2, 8, 100]);
    let mut all = vec![];
    for _ in 0..count {
        let at_selects = inputs.contains(&true) && random.once_in(4);
        all.extend(inputs.iter().map(|&select| {
            let unknown = if at_selects { select } else { random.below(known + 1) == 0 };
            if unknown {
                2
            } else {
                random.below(2) as u8
            }
        }));
    }
    all
}

/// How many inputs a circuit has.
pub fn inputs(circuit: &[u8]) -> usize {
    circuit.chunks_exact(8).filter(|record| record[0] == INPUT).count()
}
