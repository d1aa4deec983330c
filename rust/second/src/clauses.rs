//! Clauses, and the clause writer.
use crate::circuit::{Circuit, Gate};
use crate::fault::{Fault, Site};
use crate::refusal::{refusal, Refusal};

/// Signed variables of which one at least is true.
pub type Clause = Vec<i32>;

/// A gate's row, as document 01 has it, and document 02 that of a selector. A good input writes nothing.
fn row(gate: Gate) -> &'static str {
    match gate {
        Gate::Input => "",
        Gate::Buffer(_) => "(-y a)(y -a)",
        Gate::Not(_) => "(-y -a)(y a)",
        Gate::And(..) => "(-y a)(-y b)(y -a -b)",
        Gate::Nand(..) => "(y a)(y b)(-y -a -b)",
        Gate::Or(..) => "(y -a)(y -b)(-y a b)",
        Gate::Nor(..) => "(-y -a)(-y -b)(y a b)",
        Gate::Xor(..) => "(-y a b)(-y -a -b)(y -a b)(y a -b)",
        Gate::Xnor(..) => "(y a b)(y -a -b)(-y -a b)(-y a -b)",
        Gate::Selector(..) => "(s -y a)(s y -a)(-s -y b)(-s y -b)",
    }
}

/// The clauses of y = gate over these pins.
fn gate_clauses(gate: Gate, y: i32, pins: &[i32]) -> Vec<Clause> {
    let variable = |letter: &str| match letter {
        "y" => y,
        "a" => pins[0],
        "b" => pins[1],
        _ => pins[2],
    };
    let literal = |word: &str| word.strip_prefix('-').map_or_else(|| variable(word), |letter| -variable(letter));
    let clauses = row(gate).split(['(', ')']).filter(|clause| !clause.is_empty());
    clauses.map(|clause| clause.split(' ').map(literal).collect()).collect()
}

/// The clauses of a circuit and a fault, in order.
pub fn clauses_of(circuit: &Circuit, fault: Fault) -> Vec<Clause> {
    let lines = circuit.lines.len();
    let good = |line: usize| (2 * line + 1) as i32;
    let faulty = |line: usize| (2 * line + 2) as i32;
    let stuck = (2 * lines + 1) as i32;
    let difference = |output: usize| (2 * lines + 2 + output) as i32;

    let buffer = |y, a| gate_clauses(Gate::Buffer(0), y, &[a]);
    let xor = |y, a, b| gate_clauses(Gate::Xor(0, 0), y, &[a, b]);
    let gates = || circuit.lines.iter().map(|line| line.gate).enumerate();

    let good_gate = |(line, gate): (usize, Gate)| {
        let pins: Vec<i32> = gate.sources().into_iter().map(good).collect();
        gate_clauses(gate, good(line), &pins)
    };
    let faulty_line = |(line, gate): (usize, Gate)| {
        let is_stuck = |site| (fault.line, fault.site) == (line, site);
        let pin = |(place, source)| if is_stuck(Site::Pin(place + 1)) { stuck } else { faulty(source) };
        let pins: Vec<i32> = gate.sources().into_iter().enumerate().map(pin).collect();
        match gate {
            _ if is_stuck(Site::Line) => buffer(faulty(line), stuck),
            Gate::Input => buffer(faulty(line), good(line)),
            _ => gate_clauses(gate, faulty(line), &pins),
        }
    };
    let outputs = circuit.outputs().count();
    let differs = |(output, line)| xor(difference(output), good(line), faulty(line));

    let mut clauses = vec![];
    clauses.extend(gates().flat_map(good_gate));
    clauses.push(vec![if fault.stuck { stuck } else { -stuck }]);
    clauses.extend(gates().flat_map(faulty_line));
    clauses.extend(circuit.outputs().enumerate().flat_map(differs));
    clauses.push((0..outputs).map(difference).collect());
    clauses
}

/// The words of clauses: each is closed by a 0.
pub fn words(clauses: &[Clause]) -> Vec<i32> {
    clauses.iter().flat_map(|clause| clause.iter().copied().chain([0])).collect()
}

/// What the clause writer writes.
pub struct Written {
    pub words: Vec<i32>,
    pub clauses: usize,
    pub variables: usize,
}

/// The clause writer, with room for so many words.
pub fn clauses(circuit: &[u8], fault: &[u8], room: usize) -> Result<Written, Refusal> {
    let circuit = Circuit::read(circuit)?;
    let fault = Fault::read_all(&circuit, fault, 1)?[0];
    let clauses = clauses_of(&circuit, fault);
    let words = words(&clauses);
    let variables = 2 * circuit.lines.len() + 1 + circuit.outputs().count();
    if words.len() > room {
        return Err(refusal(11, words.len()));
    }
    Ok(Written { words, clauses: clauses.len(), variables })
}
