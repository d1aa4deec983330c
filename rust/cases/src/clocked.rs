//! Clocked circuits, as the bytes of their records, with what their dictionaries are made of.
use crate::circuits::{self, circuit, record, selectors, AND, INPUT, NAND, NOR, NOT, OR, XOR};
use crate::faults::{self, inputs, patterns_of};
use crate::{Random, Sort};

/// A circuit, its state records, and how many steps it runs.
#[derive(Clone, Debug)]
pub struct Clocked {
    pub circuit: Vec<u8>,
    pub states: Vec<u8>,
    pub steps: u64,
}

/// The record of a state: its data line, and the state line.
pub fn state(data: usize, line: usize) -> [u8; 4] {
    let ([d0, d1], [s0, s1]) = ((data as u16).to_le_bytes(), (line as u16).to_le_bytes());
    [d0, d1, s0, s1]
}

/// The data line and the state line of each record.
pub fn pairs(states: &[u8]) -> Vec<[usize; 2]> {
    let number = |bytes: &[u8]| usize::from(u16::from_le_bytes([bytes[0], bytes[1]]));
    states.chunks_exact(4).map(|record| [number(record), number(&record[2..])]).collect()
}

/// The lines of a circuit that are inputs.
fn input_lines(circuit: &[u8]) -> Vec<usize> {
    (0..circuit.len() / 8).filter(|line| circuit[8 * line] == INPUT).collect()
}

impl Clocked {
    fn new(circuit: Vec<u8>, states: &[[u8; 4]], steps: u64) -> Clocked {
        Clocked { circuit, states: states.concat(), steps }
    }

    /// How many lines one step has.
    pub fn each(&self) -> usize {
        self.circuit.len() / 8
    }

    /// How many lines all steps have.
    pub fn lines(&self) -> usize {
        self.steps as usize * self.each()
    }

    /// Which inputs a pattern has a value for, by their lines: all of the first step, and then those of each later step that are no state lines.
    fn pattern_lines(&self) -> Vec<usize> {
        let (all, states) = (input_lines(&self.circuit), pairs(&self.states));
        let free = all.iter().copied().filter(|line| states.iter().all(|[_, state]| state != line)).collect::<Vec<_>>();
        [all, free.repeat(self.steps as usize - 1)].concat()
    }

    /// How many inputs there are over all steps.
    pub fn inputs(&self) -> usize {
        self.pattern_lines().len()
    }

    /// So many patterns, in which X is rare, frequent or everything, or stands at selects alone.
    pub fn patterns(&self, random: &mut Random, count: usize) -> Vec<u8> {
        let is_select = |line: usize| selectors(&self.circuit).any(|[.., select]| select == line);
        patterns_of(random, &self.pattern_lines().into_iter().map(is_select).collect::<Vec<_>>(), count)
    }

    /// So many faults, where there are states often at a state line or at a data line.
    pub fn faults(&self, random: &mut Random, count: usize) -> Vec<u8> {
        let mut faults = faults::some(random, &self.circuit, count);
        let lines = pairs(&self.states).concat();
        for fault in faults.chunks_exact_mut(8).filter(|_| !lines.is_empty()) {
            if random.once_in(3) {
                fault.copy_from_slice(&faults::record(random.pick(&lines), 0, random.once_in(2)));
            }
        }
        faults
    }
}

/// A clocked circuit of so many lines and inputs, of which so many are state lines, for so many steps. Data lines are any, often inputs or state
/// lines, the state line itself among them, and often one and the same for two; records come in any order.
pub fn clocked(random: &mut Random, lines: usize, inputs: usize, states: usize, steps: u64) -> Clocked {
    let circuit = circuit(random, lines, inputs);
    let states = drawn_states(random, &circuit, states);
    Clocked { circuit, states, steps }
}

fn drawn_states(random: &mut Random, circuit: &[u8], count: usize) -> Vec<u8> {
    let mut free = input_lines(circuit);
    let mut states: Vec<[u8; 4]> = vec![];
    for _ in 0..count {
        let line = free.swap_remove(random.below(free.len()));
        let data = match (random.below(8), states.last()) {
            (0, _) => line,
            (1, _) => random.pick(&input_lines(circuit)),
            (2, Some(last)) => pairs(last)[0][0],
            _ => random.below(circuit.len() / 8),
        };
        states.push(state(data, line));
    }
    states.concat()
}

/// The most steps, of so many at most, after which there are no more than 64 inputs; at least one.
fn fitting(random: &mut Random, inputs: usize, states: usize) -> u64 {
    let most = 1 + random.below(8);
    (1..=most).rev().find(|steps| inputs + (steps - 1) * (inputs - states) <= 64).expect("one step") as u64
}

/// A clocked circuit of a few lines, with no, some or all of its inputs for state lines.
pub fn small(random: &mut Random) -> Clocked {
    let circuit = circuits::small(random);
    let inputs = inputs(&circuit);
    let count = match random.below(5) {
        0 => 0,
        1 => inputs,
        _ => random.below(inputs + 1),
    };
    let states = drawn_states(random, &circuit, count);
    let steps = fitting(random, inputs, count);
    Clocked { circuit, states, steps }
}

/// A clocked circuit with its faults and patterns: what its dictionary is made of.
#[derive(Clone, Debug)]
pub struct Given {
    pub clocked: Clocked,
    pub faults: Vec<u8>,
    pub patterns: Vec<u8>,
}

impl Given {
    /// So many faults and so many patterns.
    pub fn some(random: &mut Random, clocked: Clocked, fault_count: usize, pattern_count: usize) -> Given {
        let (faults, patterns) = (clocked.faults(random, fault_count), clocked.patterns(random, pattern_count));
        Given { clocked, faults, patterns }
    }

    /// Every fault, where there are no more than 256, and so many patterns.
    pub fn every(random: &mut Random, clocked: Clocked, pattern_count: usize) -> Given {
        let faults: Vec<_> = faults::every(&clocked.circuit).into_iter().take(256).collect();
        let patterns = clocked.patterns(random, pattern_count);
        Given { clocked, faults: faults.concat(), patterns }
    }

    /// How many entries its table has.
    pub fn entries(&self) -> usize {
        self.faults.len() / 8 * (self.patterns.len() / self.clocked.inputs())
    }
}

/// A few faults, now and then all, and a few patterns.
pub fn small_given(random: &mut Random) -> Given {
    let clocked = small(random);
    let count = 1 + random.below(5);
    if random.once_in(20) {
        return Given::every(random, clocked, count);
    }
    let fault_count = 1 + random.below(6);
    Given::some(random, clocked, fault_count, count)
}

/// Counts up by one in each step in which line 0 is 1: `bits` state lines from line 1 on, the lowest first. The lines behind them are, bit by bit,
/// its sum with the carry, which is its data line and an output, and the carry on.
pub fn counter(bits: usize, steps: u64) -> Clocked {
    let mut circuit = record(INPUT, false, 0, 0).repeat(1 + bits);
    let mut carry = 0;
    let mut states = vec![];
    for bit in 1..=bits {
        let sum = circuit.len() / 8;
        circuit.extend(record(XOR, true, bit, carry));
        circuit.extend(record(AND, false, bit, carry));
        states.push(state(sum, bit));
        carry = sum + 1;
    }
    Clocked::new(circuit, &states, steps)
}

/// Line 0 is shifted into line 1, this into line 2 and so on; the last, a state line, is the one output.
pub fn shift_register(length: usize, steps: u64) -> Clocked {
    let circuit = (0..=length).flat_map(|line| record(INPUT, line == length, 0, 0)).collect();
    let states: Vec<_> = (1..=length).map(|line| state(line - 1, line)).collect();
    Clocked::new(circuit, &states, steps)
}

/// s27 of ISCAS-89: G0 to G3 are lines 0 to 3, the flip-flops G5, G6, G7 lines 4 to 6, then G14, G8, G12, G15, G16, G9, G11, G10, G13 and, the
/// output, G17.
pub fn s27(steps: u64) -> Clocked {
    let gates = [
        (NOT, 0, 0),
        (AND, 7, 5),
        (NOR, 1, 6),
        (OR, 9, 8),
        (OR, 3, 8),
        (NAND, 11, 10),
        (NOR, 4, 12),
        (NOR, 7, 13),
        (NOR, 2, 9),
        (NOT, 13, 0),
    ];
    let gates = gates.map(|(kind, first, second)| record(kind, first == 13 && kind == NOT, first, second));
    Clocked::new([record(INPUT, false, 0, 0).repeat(7), gates.concat()].concat(), &[state(14, 4), state(13, 5), state(15, 6)], steps)
}

/// Clocked circuits, each for every number of steps, with their names.
pub fn named() -> Vec<(&'static str, Clocked)> {
    let input = |output| record(INPUT, output, 0, 0);
    let not = |output, source| record(NOT, output, source, 0);
    let of = |steps| {
        [
            ("a counter", counter(3, steps)),
            ("s27", s27(steps)),
            ("a shift register", shift_register(5, steps)),
            ("a state line that an input feeds", Clocked::new([input(false), input(false), not(true, 1)].concat(), &[state(0, 1)], steps)),
            ("a state line that feeds itself", Clocked::new([input(false), not(true, 0)].concat(), &[state(0, 0)], steps)),
            (
                "two state lines from one data line",
                Clocked::new(
                    [input(false), input(false), record(AND, true, 0, 1), not(false, 2)].concat(),
                    &[state(3, 1), state(3, 0)],
                    steps,
                ),
            ),
            ("an output that is a state line", Clocked::new([input(true), not(false, 0)].concat(), &[state(1, 0)], steps)),
            (
                "two state lines that change places, both outputs",
                Clocked::new([input(true), input(true)].concat(), &[state(0, 1), state(1, 0)], steps),
            ),
            ("no state records", Clocked::new(circuits::example_a(), &[], steps)),
            ("one line", Clocked::new(input(true).to_vec(), &[], steps)),
        ]
    };
    (1..=8).flat_map(of).collect()
}

/// At and beyond the most inputs after unfolding: for each number of steps, 64 or 65 of them, with few state lines or many.
pub fn input_bounds(random: &mut Random) -> Vec<Clocked> {
    let mut all = vec![];
    for (steps, total) in (1..=8).flat_map(|steps| [64, 65].map(|total| (steps, total))) {
        for free in [1, 2, 64 / steps] {
            let states = total - steps * free;
            let inputs = free + states;
            let lines = inputs + random.below(8);
            all.push(clocked(random, lines, inputs, states, steps as u64));
        }
    }
    all
}

/// At and beyond the most lines after unfolding: for each number of steps the most that a step may have, and one more; and one step more.
pub fn line_bounds(random: &mut Random) -> Vec<Clocked> {
    let mut all = vec![];
    for steps in 1..=8 {
        for (lines, steps) in [(2048 / steps, steps), (2048 / steps + 1, steps), (2048 / steps, steps + 1)] {
            all.push(clocked(random, lines, 6, 3, steps as u64));
        }
    }
    all
}

/// How states are wired.
pub const WIRED: [Sort; 7] = [
    "no states",
    "an input feeds a state",
    "a state feeds itself",
    "a state feeds another",
    "a gate feeds a state",
    "one line feeds two states",
    "a state is an output",
];

/// What is stuck.
pub const STUCK: [Sort; 2] = ["state line stuck", "data line stuck"];

/// How the states of a clocked circuit are wired.
pub fn wired(circuit: &[u8], states: &[u8]) -> Vec<Sort> {
    let pairs = pairs(states);
    let is_state = |line: usize| pairs.iter().any(|&[_, state]| state == line);
    let of_each = pairs.iter().enumerate().flat_map(|(place, &[data, line])| {
        let is_input = circuit[8 * data] == INPUT;
        let holds = [
            false,
            is_input && !is_state(data),
            data == line,
            data != line && is_state(data),
            !is_input,
            pairs[..place].iter().any(|&[other, _]| other == data),
            circuit[8 * line + 1] == 1,
        ];
        WIRED.into_iter().zip(holds).filter(|(_, holds)| *holds).map(|(sort, _)| sort)
    });
    of_each.chain(pairs.is_empty().then_some(WIRED[0])).collect()
}

/// Which faults are at state lines and at data lines.
pub fn stuck(states: &[u8], faults: &[u8]) -> Vec<Sort> {
    let pairs = pairs(states);
    let lines = faults.chunks_exact(8).filter(|fault| fault[2] == 0).map(|fault| usize::from(u16::from_le_bytes([fault[0], fault[1]])));
    let sorts = |line: usize| {
        let holds = [pairs.iter().any(|&[_, state]| state == line), pairs.iter().any(|&[data, _]| data == line)];
        STUCK.into_iter().zip(holds).filter(|(_, holds)| *holds).map(|(sort, _)| sort).collect::<Vec<_>>()
    };
    lines.flat_map(sorts).collect()
}
