//! Head lines and the search over them, on another way than the command and the library go: what can be reached is followed from every branch, and
//! the search is one over the inputs of a circuit that is cut at its head lines.
use cases::texts::{dense, gate, input, output, short, Statement};
use cases::Random;
use second::circuit::{Gate, Line};
use second::search::{search_circuit, Search};
use second::{Circuit, Fault, Pattern, Site, Value};

pub struct Heads<'a> {
    circuit: &'a Circuit,
    /// Whether a line is bound.
    pub bound: Vec<bool>,
    /// The head lines, in order.
    pub lines: Vec<usize>,
}

/// For each line whether it can be reached from one of these, which are.
fn reached(circuit: &Circuit, from: &[usize]) -> Vec<bool> {
    let mut reached = vec![false; circuit.lines.len()];
    from.iter().for_each(|&line| reached[line] = true);
    // a gate stands behind what it reads
    for line in 0..reached.len() {
        reached[line] |= circuit.lines[line].gate.sources().into_iter().any(|source| reached[source]);
    }
    reached
}

/// For each line the gates that read it, each as often as it has pins that do.
fn readers(circuit: &Circuit) -> Vec<Vec<usize>> {
    let mut readers = vec![vec![]; circuit.lines.len()];
    for (number, line) in circuit.lines.iter().enumerate() {
        line.gate.sources().into_iter().for_each(|source| readers[source].push(number));
    }
    readers
}

impl Heads<'_> {
    pub fn of(circuit: &Circuit) -> Heads<'_> {
        let readers = readers(circuit);
        let branches: Vec<usize> = readers.iter().filter(|pins| pins.len() > 1).flatten().copied().collect();
        let bound = reached(circuit, &branches);
        let is_head = |line: &usize| !bound[*line] && (readers[*line].len() > 1 || readers[*line].iter().any(|&gate| bound[gate]));
        let lines = (0..bound.len()).filter(is_head).collect();
        Heads { circuit, bound, lines }
    }

    /// The lines from which a head line can be reached, itself among them.
    pub fn tree(&self, head: usize) -> Vec<usize> {
        (0..=head).filter(|&line| reached(self.circuit, &[line])[head]).collect()
    }

    pub fn serve(&self, fault: Fault) -> bool {
        self.bound[fault.line] || self.lines.contains(&fault.line) && fault.site == Site::Line
    }

    /// What is found where head lines decide as far as they serve; the last node has a value for each input.
    pub fn search(&self, fault: Fault, budget: u64) -> Search {
        if !self.serve(fault) {
            return search_circuit(self.circuit, fault, budget);
        }
        let kept: Vec<usize> = (0..self.bound.len()).filter(|line| self.bound[*line] || self.lines.contains(line)).collect();
        let place = |line: usize| kept.binary_search(&line).expect("a bound gate reads bound lines and head lines alone");
        let cut = |&line: &usize| {
            let Line { gate, output } = self.circuit.lines[line];
            Line { gate: if self.bound[line] { gate.over(|_, source| place(source)) } else { Gate::Input }, output }
        };
        let cut = Circuit { lines: kept.iter().map(cut).collect() };
        let found = search_circuit(&cut, Fault { line: place(fault.line), ..fault }, budget);
        Search { last: found.last.map(|node| self.set(&node)), ..found }
    }

    /// The pattern that sets the trees to what the head lines have.
    fn set(&self, node: &Pattern) -> Pattern {
        let mut values = vec![None; self.bound.len()];
        self.lines.iter().zip(node).for_each(|(&head, &value)| values[head] = value);
        for line in (0..values.len()).rev().filter(|&line| !self.bound[line]) {
            let gate = self.circuit.lines[line].gate;
            let pins = values[line].map_or(vec![], |value| pins(gate, value));
            gate.sources().into_iter().zip(pins).for_each(|(source, value)| values[source] = value);
        }
        self.circuit.inputs().map(|line| values[line]).collect()
    }
}

/// What the pins of a gate are given so that it has a value.
fn pins(gate: Gate, value: bool) -> Vec<Value> {
    match (gate, value) {
        (Gate::Input, _) => vec![],
        (Gate::Buffer(_), _) => vec![Some(value)],
        (Gate::Not(_), _) => vec![Some(!value)],
        (Gate::And(..), false) | (Gate::Nand(..), true) => vec![Some(false), None],
        (Gate::And(..), true) | (Gate::Nand(..), false) => vec![Some(true); 2],
        (Gate::Or(..), true) | (Gate::Nor(..), false) => vec![Some(true), None],
        (Gate::Or(..), false) | (Gate::Nor(..), true) => vec![Some(false); 2],
        (Gate::Xor(..), _) => vec![Some(false), Some(value)],
        (Gate::Xnor(..), _) => vec![Some(false), Some(!value)],
        (Gate::Selector(..), _) => vec![Some(value), None, Some(false)],
    }
}

/// A text of at most so many inputs, whose gates first read what nothing has read before, so that trees grow, and then any of what was left.
pub fn bushy(random: &mut Random, most: usize) -> Vec<u8> {
    let inputs = 1 + random.below(most);
    let trees = inputs + random.below(inputs);
    let lines = trees + 1 + random.below(12);
    let (mut all, mut roots): (Vec<Statement>, Vec<usize>) = (0..inputs).map(|line| (input(&short(line)), line)).unzip();
    for line in inputs..lines {
        let mut source = || match line < trees && roots.len() > 1 {
            true => short(roots.swap_remove(random.below(roots.len()))),
            false => short(random.pick(&roots)),
        };
        let both = [source(), source()];
        all.push(gate(&short(line), 1 + random.below(8) as u8, both.each_ref().map(String::as_str)));
        roots.push(line);
    }
    all.extend((0..lines).filter(|&line| line + 1 == lines || random.once_in(5)).map(|line| output(&short(line))));
    dense(&all)
}
