//! Circuits with their faults and patterns: what dictionaries are made of.
use crate::circuits::{self, circuit};
use crate::faults::{every, inputs, patterns, record, some};
use crate::Random;

#[derive(Clone, Debug)]
pub struct Files {
    pub circuit: Vec<u8>,
    pub faults: Vec<u8>,
    pub patterns: Vec<u8>,
}

impl Files {
    /// A circuit with so many faults and so many patterns.
    pub fn some(random: &mut Random, circuit: Vec<u8>, fault_count: usize, pattern_count: usize) -> Files {
        let (faults, patterns) = (some(random, &circuit, fault_count), patterns(random, &circuit, pattern_count));
        Files { circuit, faults, patterns }
    }

    pub fn lines(&self) -> usize {
        self.circuit.len() / 8
    }

    pub fn inputs(&self) -> usize {
        inputs(&self.circuit)
    }

    pub fn fault_count(&self) -> usize {
        self.faults.len() / 8
    }

    pub fn pattern_count(&self) -> usize {
        self.patterns.len() / self.inputs()
    }

    /// How many entries its table has.
    pub fn entries(&self) -> usize {
        self.fault_count() * self.pattern_count()
    }
}

/// Example A of document 01.
pub fn example_a() -> Files {
    let faults = [record(3, 0, false), record(3, 0, true), record(2, 0, true), record(0, 0, false)].concat();
    Files { circuit: circuits::example_a(), faults, patterns: vec![1, 1, 0, 0, 1, 0, 0, 2, 0, 2, 1, 0] }
}

/// A small circuit with some of its faults or all of them, and so many patterns.
pub fn small(random: &mut Random, pattern_count: usize) -> Files {
    let circuit = circuits::small(random);
    let faults = if random.once_in(20) {
        every(&circuit).concat()
    } else {
        let count = 1 + random.below(8);
        some(random, &circuit, count)
    };
    let patterns = patterns(random, &circuit, pattern_count);
    Files { circuit, faults, patterns }
}

/// The sizes at which something changes, but for those of groups of patterns.
pub fn boundaries(random: &mut Random) -> Vec<Files> {
    let mut all = vec![];
    for (lines, wide) in [(1, 1), (2, 1), (64, 64), (65, 64), (66, 65), (2047, 64), (2048, 1), (2048, 64), (2049, 64)] {
        for fault_count in [0, 1, 2, 255, 256, 257] {
            for pattern_count in [0, 1, 2] {
                let circuit = circuit(random, lines, wide);
                all.push(Files::some(random, circuit, fault_count, pattern_count));
            }
        }
    }
    for pattern_count in [255, 256, 257] {
        let circuit = circuit(random, 100, 10);
        all.push(Files::some(random, circuit, 3, pattern_count));
    }
    all
}

/// 2,048 lines, 64 inputs, 256 faults, 256 patterns.
pub fn largest(random: &mut Random) -> Files {
    let circuit = circuit(random, 2048, 64);
    Files::some(random, circuit, 256, 256)
}
