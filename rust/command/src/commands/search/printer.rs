//! What a search has found, in words. Whatever is printed ends its line: the next one may be the bar's.
use super::brought::Brought;
use super::pieces::Found;
use super::way::Way;
use crate::circuit::Circuit;
use crate::columns::{widest, Columns};
use crate::fault::Fault;
use crate::form::{count, csv_row, list, quoted, Form};
use crate::heads::Heads;
use crate::pattern::Pattern;
use ullimaqsu::Outcome;

pub struct Printer<'a> {
    form: Form,
    circuit: &'a Circuit,
    way: &'a Way,
    inputs: Vec<&'a str>,
    columns: Columns,
    /// How wide a number of nodes is.
    nodes: usize,
    /// How many faults are still to come.
    left: usize,
}

impl Printer<'_> {
    pub fn new<'a>(form: Form, circuit: &'a Circuit, faults: &[Fault], budget: u64, way: &'a Way) -> Printer<'a> {
        let inputs: Vec<&str> = circuit.inputs().into_iter().map(|line| circuit.name(line)).collect();
        // a search looks at no more nodes than its budget, and there are no more than those of the whole tree
        let tree = 2_u64.checked_pow(inputs.len() as u32 + 1).map_or(u64::MAX, |nodes| nodes - 1);
        let nodes = budget.min(tree).to_string().len().max("nodes".len());
        let names = widest(faults.iter().map(|fault| fault.named(circuit))).max("fault".len());
        let columns = Columns::new([names, "redundant".len(), nodes].into_iter().chain(inputs.iter().map(|name| name.len())));
        Printer { form, circuit, way, inputs, columns, nodes, left: faults.len() }
    }

    pub fn head(&self) -> String {
        match self.form {
            Form::Table => self.columns.row(["fault", "outcome", &format!("{:>1$}", "nodes", self.nodes)].iter().chain(&self.inputs)),
            Form::Csv => csv_row(["fault", "outcome", "nodes"].iter().chain(&self.inputs)),
            Form::Json => {
                let names = |heads: &Heads| list(heads.lines.iter().map(|&line| self.circuit.name(line)));
                let heads = self.way.heads().map_or(String::new(), |heads| format!("\"heads\": {},\n", names(heads)));
                format!("{{\"inputs\": {},\n{heads}\"faults\": [\n", list(&self.inputs))
            }
        }
    }

    pub fn line(&mut self, found: &Found) -> String {
        self.left = self.left.saturating_sub(1);
        let (fault, outcome) = (found.fault.named(self.circuit), word(found.search.outcome));
        let (nodes, letters) = (found.search.nodes.to_string(), found.test.as_ref().map(Pattern::letters));
        let values = || match &letters {
            Some(letters) => letters.chars().map(String::from).collect(),
            None => vec![String::new(); self.inputs.len()],
        };
        match self.form {
            Form::Table => self.columns.row([fault, outcome.to_string(), format!("{nodes:>0$}", self.nodes)].into_iter().chain(values())),
            Form::Csv => csv_row([fault, outcome.to_string(), nodes].into_iter().chain(values())),
            Form::Json => {
                let (test, comma) = (letters.map_or("null".to_string(), quoted), if self.left > 0 { "," } else { "" });
                format!("{{\"fault\": \"{fault}\", \"outcome\": \"{outcome}\", \"nodes\": {nodes}, \"test\": {test}}}{comma}\n")
            }
        }
    }

    pub fn foot(&self, all: &[Found]) -> String {
        let [tests, redundant, given_up] = [Outcome::Test, Outcome::Redundant, Outcome::GivenUp]
            .map(|outcome| all.iter().filter(|found| found.search.outcome == outcome).count());
        let brought = Brought::by(self.way, all);
        match self.form {
            Form::Table => {
                let heads = brought.map_or(String::new(), |brought| brought.lines(self.circuit));
                format!("{}: {}, {redundant} redundant, {given_up} given up\n{heads}", count(all.len(), "fault"), count(tests, "test"))
            }
            Form::Csv => String::new(),
            Form::Json => {
                let heads = brought.map_or(String::new(), |brought| brought.fields());
                format!("],\n\"tests\": {tests}, \"redundant\": {redundant}, \"given up\": {given_up}{heads}}}\n")
            }
        }
    }
}

fn word(outcome: Outcome) -> &'static str {
    match outcome {
        Outcome::Test => "test",
        Outcome::Redundant => "redundant",
        Outcome::GivenUp => "given up",
    }
}
