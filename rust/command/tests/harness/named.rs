//! Circuits of the second program, with the names that a user knows.
use cases::Random;
use second::bench::placed;
use second::circuit::Gate;
use second::{Circuit, Fault, Given, Pattern, Site};
use std::fs;
use std::path::Path;

pub struct Named {
    pub circuit: Circuit,
    pub names: Vec<String>,
}

impl Named {
    /// Of a file that is a text, or records, which begin with an input.
    pub fn of_file(path: &Path) -> Named {
        let bytes = fs::read(path).expect("a circuit");
        match bytes.first() {
            Some(0) => Named::of_records(&bytes),
            _ => Named::of_text(&bytes),
        }
    }

    pub fn of_text(text: &[u8]) -> Named {
        let placed = placed(text).expect("a right text");
        let mut names = vec![String::new(); placed.circuit.lines.len()];
        for (name, &line) in &placed.line_of {
            names[line] = String::from_utf8(name.to_vec()).expect("letters");
        }
        Named { circuit: placed.circuit, names }
    }

    pub fn of_records(records: &[u8]) -> Named {
        let circuit = Circuit::read(records).expect("a circuit");
        let names = (0..circuit.lines.len()).map(|line| line.to_string()).collect();
        Named { circuit, names }
    }

    /// All faults, in the order of the command, with those at pins or without.
    pub fn faults(&self, pins: bool) -> Vec<Fault> {
        let mut all = vec![];
        for (line, of) in self.circuit.lines.iter().enumerate() {
            let pins = if pins { of.gate.sources().len() } else { 0 };
            let sites = [Site::Line].into_iter().chain((1..=pins).map(Site::Pin));
            all.extend(sites.flat_map(|site| [false, true].map(|stuck| Fault { line, site, stuck })));
        }
        all
    }

    /// A fault as it is written.
    pub fn word(&self, fault: Fault) -> String {
        let (name, stuck) = (&self.names[fault.line], u8::from(fault.stuck));
        match fault.site {
            Site::Line => format!("{name}/{stuck}"),
            Site::Pin(pin) => format!("{name}.{pin}/{stuck}"),
        }
    }

    /// The names of the inputs.
    pub fn inputs(&self) -> Vec<&str> {
        self.circuit.inputs().map(|line| self.names[line].as_str()).collect()
    }

    /// So many faults and patterns, drawn, with few X or many.
    pub fn given(&self, random: &mut Random, fault_count: usize, pattern_count: usize) -> Given {
        let (all, inputs) = (self.faults(true), self.inputs().len());
        let faults = (0..fault_count).map(|_| all[random.below(all.len())]).collect();
        let known = random.pick(&[1, 2, 8]);
        let mut value = || if random.once_in(1 + known) { None } else { Some(random.once_in(2)) };
        let patterns = (0..pattern_count).map(|_| (0..inputs).map(|_| value()).collect()).collect();
        Given { circuit: self.circuit.clone(), faults, patterns }
    }

    /// Faults as a file, one a line.
    pub fn fault_lines(&self, faults: &[Fault]) -> String {
        faults.iter().map(|&fault| self.word(fault) + "\n").collect()
    }
}

/// The word of a gate's kind.
pub fn kind(gate: Gate) -> &'static str {
    match gate {
        Gate::Input => "INPUT",
        Gate::Buffer(_) => "BUFF",
        Gate::Not(_) => "NOT",
        Gate::And(..) => "AND",
        Gate::Nand(..) => "NAND",
        Gate::Or(..) => "OR",
        Gate::Nor(..) => "NOR",
        Gate::Xor(..) => "XOR",
        Gate::Xnor(..) => "XNOR",
        Gate::Selector(..) => "SELECTOR",
    }
}

/// A pattern as it is written.
pub fn letters(pattern: &Pattern) -> String {
    pattern.iter().map(|value| value.map_or('X', |value| if value { '1' } else { '0' })).collect()
}

/// Patterns as a file, one a line.
pub fn pattern_lines(patterns: &[Pattern]) -> String {
    patterns.iter().map(|pattern| letters(pattern) + "\n").collect()
}
