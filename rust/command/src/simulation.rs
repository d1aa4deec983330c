//! The values of all lines under one pattern, good and with a fault: the library's.
use crate::circuit::Circuit;
use crate::entry::Entry;
use crate::fault::Fault;
use crate::pattern::Pattern;
use crate::value::Value;

/// How the good and the faulty value of a line stand to each other.
#[derive(Clone, Copy, PartialEq, Eq, Debug)]
pub enum Difference {
    /// Equal, or both X.
    None,
    /// Both are known and not equal: they differ however the X's are filled.
    Sure,
    /// Exactly one is X.
    Perhaps,
}

impl Difference {
    pub fn mark(self) -> &'static str {
        match self {
            Difference::None => "",
            Difference::Sure => "*",
            Difference::Perhaps => "?",
        }
    }
}

/// What a fault does under the pattern.
pub struct Faulty {
    pub fault: Fault,
    pub entry: Entry,
    values: Vec<Value>,
}

pub struct Simulation {
    pub pattern: Pattern,
    good: Vec<Value>,
    pub faulty: Option<Faulty>,
}

impl Simulation {
    /// One call of the dictionary maker, which leaves the values of all lines in its work memory. It wants a fault; where none is given,
    /// any fault does, and its values are not looked at.
    pub fn of(circuit: &Circuit, pattern: Pattern, fault: Option<Fault>) -> Simulation {
        let any = Fault { line: 0, site: 0, value: false };
        let (mut table, mut work) = ([0], vec![0; 2 * circuit.size()]);
        ullimaqsu::dictionary(&circuit.records, &fault.unwrap_or(any).record(), &pattern.0, &mut table, &mut work)
            .expect("a circuit, a fault and a pattern that were read, and memory of its exact size, are never refused");
        let (good, faulty) = work.split_at(circuit.size());
        let values = |bytes: &[u8]| bytes.iter().copied().map(Value::of).collect();
        let faulty = fault.map(|fault| Faulty { fault, entry: Entry::of(table[0]), values: values(faulty) });
        Simulation { pattern, good: values(good), faulty }
    }

    pub fn good(&self, line: usize) -> Value {
        self.good[line]
    }

    /// The value with the fault, where one is given.
    pub fn faulty(&self, line: usize) -> Option<Value> {
        self.faulty.as_ref().map(|faulty| faulty.values[line])
    }

    pub fn difference(&self, line: usize) -> Difference {
        match (self.good(line), self.faulty(line)) {
            (_, None) => Difference::None,
            (good, Some(faulty)) if good == faulty => Difference::None,
            (Value::X, _) | (_, Some(Value::X)) => Difference::Perhaps,
            _ => Difference::Sure,
        }
    }

    /// The good value, and after a stroke the faulty one where there is a fault.
    pub fn letters(&self, line: usize) -> String {
        match self.faulty(line) {
            None => self.good(line).letter().to_string(),
            Some(faulty) => format!("{}/{}", self.good(line).letter(), faulty.letter()),
        }
    }

    /// What the dictionary says of the fault, in words; nothing where there is no fault.
    pub fn verdict(&self, circuit: &Circuit) -> Option<String> {
        let compared = |line: &usize| circuit.is_output(*line) && self.good(*line) != Value::X;
        let outputs = |with: Difference| {
            let lines = (0..circuit.size()).filter(compared).filter(|&line| self.difference(line) == with);
            lines.map(|line| circuit.name(line)).collect::<Vec<_>>().join(", ")
        };
        self.faulty.as_ref().map(|faulty| match faulty.entry {
            Entry::Pass => "pass: no output that is compared differs".to_string(),
            Entry::Fail => format!("fail: seen at {}", outputs(Difference::Sure)),
            Entry::Unknown => format!("unknown: the faulty value is X at {}", outputs(Difference::Perhaps)),
        })
    }
}
