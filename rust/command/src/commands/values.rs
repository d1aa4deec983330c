//! The values of all lines under a pattern.
use super::Command;
use crate::circuit::Circuit;
use crate::columns;
use crate::drawing;
use crate::fault::Fault;
use crate::form::{csv_row, list, quoted, Form, CSV, JSON};
use crate::out::Out;
use crate::pattern::Pattern;
use crate::problem::Problem;
use crate::replace::once_printed;
use crate::simulation::Simulation;
use crate::words::{cited, Choice, Words};

pub const COMMAND: Command = Command {
    name: "values",
    usage: "CIRCUIT PATTERN [FAULT] [--svg FILE] [--csv | --json]",
    wants: "a circuit, a pattern and perhaps a fault",
    counts: 2..=3,
    choices: &[
        Choice { name: "--svg", value: Some("FILE"), says: "draws the circuit with these values into FILE, a picture for a browser" },
        CSV,
        JSON,
    ],
    says: "shows the value of every line under a pattern, and with a fault the faulty value beside it",
    more: "\
A row for each line: its name, its kind, its sources and its value, 0, 1 or X. Of a selector the third of the sources is its select. With a fault the
faulty value follows, and a mark: * where both are known and differ, ? where exactly one is X. The last line then says what the fault dictionary has
for this pattern and this fault.

The picture has the inputs at the left, in the order of the pattern from top to bottom, the gates in columns by level, and the outputs at the
right. A wire of 1 is thick, one of 0 is thin, one of X is dashed. The fault's place has a cross, and lines that differ are red. A selector has 0 and 1
at its two sources, each at the one that this value of the select gives, and S at the select.",
    example: "ullimaqsu values examples/bench/c17.bench 1X110 11/1 --svg c17.svg",
    run,
};

fn run(words: &Words, out: &mut Out) -> Result<(), Problem> {
    let (form, file) = (Form::of(words, &COMMAND)?, words.at(0));
    let circuit = Circuit::load(file)?;
    let given: Vec<String> = words.from(1).collect();
    let pattern = pattern(&given[0], &circuit)?;
    let fault = given.get(1).map(|word| Fault::given(word, &circuit)).transpose()?;
    let simulation = Simulation::of(&circuit, pattern, fault);
    let picture = words.place("--svg", &[file])?.map(|place| (place, drawing::draw(&circuit, &simulation)));
    let text = match form {
        Form::Table => table(&circuit, &simulation),
        Form::Csv => csv(&circuit, &simulation),
        Form::Json => json(&circuit, &simulation),
    };
    once_printed(picture, text, out)
}

/// The pattern of a word, whose letters are counted from 1 where one is wrong.
fn pattern(word: &str, circuit: &Circuit) -> Result<Pattern, Problem> {
    let column = |byte: usize| word[..byte].chars().count() + 1;
    Pattern::read(word, circuit)
        .map_err(|(byte, says)| Problem::Refused(format!("pattern {}, column {}: {says}", cited(word), column(byte))))
}

/// What stands above the cells of a line.
fn heads(simulation: &Simulation) -> &'static [&'static str] {
    match simulation.faulty {
        None => &["line", "kind", "sources", "good", "output"],
        Some(_) => &["line", "kind", "sources", "good", "faulty", "differs", "output"],
    }
}

/// The cells of a line.
fn cells(circuit: &Circuit, simulation: &Simulation, line: usize) -> Vec<String> {
    let mut cells = circuit.cells(line).to_vec();
    cells.push(simulation.good(line).letter().to_string());
    if let Some(faulty) = simulation.faulty(line) {
        cells.extend([faulty.letter().to_string(), simulation.difference(line).mark().to_string()]);
    }
    cells.push(if circuit.is_output(line) { "output" } else { "" }.to_string());
    cells
}

/// All rows, the heads first.
fn rows(circuit: &Circuit, simulation: &Simulation) -> Vec<Vec<String>> {
    let heads = heads(simulation).iter().map(|head| head.to_string()).collect();
    std::iter::once(heads).chain((0..circuit.size()).map(|line| cells(circuit, simulation, line))).collect()
}

fn table(circuit: &Circuit, simulation: &Simulation) -> String {
    let verdict = simulation.verdict(circuit).map_or(String::new(), |verdict| verdict + "\n");
    columns::table(&rows(circuit, simulation)) + &verdict
}

fn csv(circuit: &Circuit, simulation: &Simulation) -> String {
    rows(circuit, simulation).into_iter().map(csv_row).collect()
}

fn json(circuit: &Circuit, simulation: &Simulation) -> String {
    let line = |line: usize| {
        let (name, kind) = (quoted(circuit.name(line)), quoted(circuit.kind(line).word()));
        let sources = list(circuit.sources(line).into_iter().map(|source| circuit.name(source)));
        let good = simulation.good(line).letter();
        let faulty = simulation.faulty(line).map_or(String::new(), |faulty| {
            format!(", \"faulty\": \"{}\", \"differs\": \"{}\"", faulty.letter(), simulation.difference(line).mark())
        });
        let output = circuit.is_output(line);
        format!("{{\"line\": {name}, \"kind\": {kind}, \"sources\": {sources}, \"good\": \"{good}\"{faulty}, \"output\": {output}}}")
    };
    let lines = (0..circuit.size()).map(line).collect::<Vec<_>>().join(",\n");
    let fault = simulation.faulty.as_ref().map_or(String::new(), |faulty| {
        format!("\"fault\": {}, \"entry\": \"{}\",\n", quoted(faulty.fault.named(circuit)), faulty.entry.letter())
    });
    format!("{{\"pattern\": {},\n{fault}\"lines\": [\n{lines}\n]}}\n", quoted(simulation.pattern.letters()))
}
