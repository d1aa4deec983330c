//! Head lines: where a search may decide instead of at the inputs. The library finds them for itself; these are for what is printed.
use crate::circuit::Circuit;
use crate::fault::Fault;
use crate::form::count;
use crate::kind::Kind;

pub struct Heads {
    /// The head lines, in order.
    pub lines: Vec<usize>,
    bound: Vec<bool>,
}

impl Heads {
    pub fn of(circuit: &Circuit) -> Heads {
        let reads = reads(circuit);
        let bound = bound(circuit, &reads);
        Heads { lines: head_lines(circuit, &reads, &bound), bound }
    }

    /// Whether a fault is searched for over head lines: it is at a bound line or its pins, or it is a head line that is stuck.
    pub fn serve(&self, fault: Fault) -> bool {
        self.bound[fault.line] || fault.site == 0 && self.lines.contains(&fault.line)
    }

    /// How many there are, for how many inputs.
    pub fn counted(&self, circuit: &Circuit) -> String {
        format!("{} for {}", count(self.lines.len(), "head line"), count(circuit.counts.inputs as usize, "input"))
    }
}

/// For each line how many pins read it. Being an output is no reading.
fn reads(circuit: &Circuit) -> Vec<usize> {
    let mut reads = vec![0; circuit.size()];
    (0..circuit.size()).flat_map(|line| circuit.sources(line)).for_each(|source| reads[source] += 1);
    reads
}

/// For each line whether it is bound: it can be reached from a branch of a line that two or more pins read. The others are free.
fn bound(circuit: &Circuit, reads: &[usize]) -> Vec<bool> {
    let mut bound = Vec::with_capacity(circuit.size());
    for line in 0..circuit.size() {
        let reached = circuit.sources(line).into_iter().any(|source: usize| reads[source] > 1 || bound[source]);
        bound.push(reached);
    }
    bound
}

/// The free lines that a bound gate reads or that themselves branch.
fn head_lines(circuit: &Circuit, reads: &[usize], bound: &[bool]) -> Vec<usize> {
    let mut is_read = vec![false; circuit.size()];
    let gates = (0..circuit.size()).filter(|&line| bound[line]);
    gates.flat_map(|line| circuit.sources(line)).for_each(|source| is_read[source] = true);
    (0..circuit.size()).filter(|&line| !bound[line] && (is_read[line] || reads[line] > 1)).collect()
}

/// The tree behind a head line, itself included.
pub struct Tree {
    pub inputs: usize,
    pub lines: usize,
}

impl Tree {
    pub fn behind(circuit: &Circuit, head: usize) -> Tree {
        let mut is_in = vec![false; head + 1];
        is_in[head] = true;
        // a source is lower than its gate
        for line in (0..=head).rev() {
            if is_in[line] {
                circuit.sources(line).into_iter().for_each(|source| is_in[source] = true);
            }
        }
        let lines = || (0..=head).filter(|&line| is_in[line]);
        Tree { inputs: lines().filter(|&line| circuit.kind(line) == Kind::Input).count(), lines: lines().count() }
    }
}
