//! Searches over head lines that are wrong in one way each.
use super::changed::{accepted, written_though_refused};
use super::rules::Rule;
use super::searches::{nodes, verdict_or_refusal, OneFault, TEST};
use super::SearchHeads;
use second::circuit::{Circuit, Gate};
use second::entries::{found, Seen};
use second::search::{self, search_circuit, search_nodes, Look};
use second::search_heads::{pins, places, Place, Placed, Setting};
use second::values::{bytes, value};
use second::{Fault, Pattern, Searched, Site, Value};

/// How a search over head lines does what it does.
#[derive(Clone, Copy)]
pub struct Way {
    places: fn(&Circuit) -> Vec<Place>,
    serves: fn(&Placed, Fault) -> bool,
    looks_at: fn(&Placed, usize) -> bool,
    /// The values that it decides, in its own order, as those of the head lines in theirs.
    decides: fn(&[Value]) -> Pattern,
    sets: Setting,
    rule: Rule,
}

/// As the request says.
pub const RIGHT: Way = Way {
    places: |circuit| places(&circuit.readers()),
    serves: |placed, fault| placed.serves(fault),
    looks_at: |placed, line| placed.places[line] != Place::Other,
    decides: <[Value]>::to_vec,
    sets: pins,
    rule: Gate::value,
};

impl Way {
    fn halves(&self, placed: &Placed, node: &[Value], fault: Fault) -> [Vec<Value>; 2] {
        [None, Some(fault)].map(|fault| placed.values(self.rule, &(self.decides)(node), fault))
    }

    /// Without X a node is left, whatever is looked at.
    fn look(&self, placed: &Placed, node: &[Value], fault: Fault) -> Look {
        let [good, faulty] = self.halves(placed, node, fault);
        let looked_at = placed.circuit.outputs().filter(|&line| (self.looks_at)(placed, line));
        match Look::at(looked_at.map(|line| (good[line], faulty[line]))) {
            Look::Open if node.iter().all(Option::is_some) => Look::Settled,
            look => look,
        }
    }

    fn searched(&self, circuit: &Circuit, fault: Fault, budget: u64) -> Searched {
        let placed = Placed { circuit, places: (self.places)(circuit) };
        if !(self.serves)(&placed, fault) {
            return search::searched(circuit, fault, budget);
        }
        let all = search::nodes(placed.heads().count(), |node| self.look(&placed, node, fault));
        let work = |node: &Pattern| {
            let [good, faulty] = self.halves(&placed, node, fault);
            bytes(&good, &faulty)
        };
        search_nodes(all, budget).leaves(work, |node| placed.pattern(self.sets, &(self.decides)(node)))
    }
}

/// What an entry says that searches in this way, where the second program accepts.
pub fn by(case: &SearchHeads, way: Way) -> Seen {
    accepted(case, |seen| {
        let (circuit, fault) = case.parts();
        *seen = found(&case.test, &case.work, &case.answer, Ok(way.searched(&circuit, fault, case.budget)));
    })
}

/// A search that goes by another gate rule.
pub fn with_rule(case: &SearchHeads, rule: Rule) -> Seen {
    by(case, Way { rule, ..RIGHT })
}

/// The gates that read each line, of which one that reads it with two pins stands there once.
fn readers_by_gate(circuit: &Circuit) -> Vec<Vec<usize>> {
    let mut readers = circuit.readers();
    readers.iter_mut().for_each(Vec::dedup);
    readers
}

/// The gates that read each line, one of them once more where the line is an output.
fn readers_and_outputs(circuit: &Circuit) -> Vec<Vec<usize>> {
    let mut readers = circuit.readers();
    let outputs = readers.iter_mut().zip(&circuit.lines).filter(|(_, line)| line.output);
    outputs.for_each(|(readers, _)| readers.extend(readers.first().copied()));
    readers
}

/// Lines that read a line which branches are bound, and no line beyond them.
fn branches_alone(circuit: &Circuit) -> Vec<Place> {
    let readers = circuit.readers();
    let is_bound = |line: usize| circuit.lines[line].gate.sources().iter().any(|&source| readers[source].len() > 1);
    let place = |line: usize| match is_bound(line) {
        true => Place::Bound,
        false if readers[line].iter().any(|&reader| is_bound(reader)) => Place::Head,
        false => Place::Other,
    };
    (0..readers.len()).map(place).collect()
}

/// The pins of a gate of this sort as another way has them, and of all others as they must be.
fn sets(gate: Gate, value: bool, other: fn(Gate, bool) -> Option<[Value; 3]>) -> [Value; 3] {
    other(gate, value).unwrap_or_else(|| pins(gate, value))
}

/// With its sources the other way round, where it has two.
fn second_first(gate: Gate, value: bool) -> [Value; 3] {
    let [first, second, select] = pins(gate, value);
    match gate {
        Gate::Buffer(_) | Gate::Not(_) | Gate::Selector(..) => [first, second, select],
        _ => [second, first, select],
    }
}

/// What the second program says, where it accepts and the search is one over head lines, with something else.
fn at_heads(case: &SearchHeads, change: impl Fn(&Placed, Fault, &mut Seen)) -> Seen {
    accepted(case, |seen| {
        let (circuit, fault) = case.parts();
        let placed = Placed::new(&circuit);
        if placed.serves(fault) {
            change(&placed, fault, seen);
        }
    })
}

/// The pattern that is left as the test, if there is one.
fn test(seen: &mut Seen) -> Option<Pattern> {
    (verdict_or_refusal(seen) == TEST).then(|| seen.lent[0].u8().iter().map(|&byte| value(byte).expect("a value")).collect())
}

type Wrong = (&'static str, fn(&SearchHeads) -> Seen);

pub const PROGRAMS: [Wrong; 27] = [
    ("counts a gate once that reads a line with two pins", |case| {
        by(case, Way { places: |circuit| places(&readers_by_gate(circuit)), ..RIGHT })
    }),
    ("counts an output as a reading", |case| by(case, Way { places: |circuit| places(&readers_and_outputs(circuit)), ..RIGHT })),
    ("binds the lines at a branch alone", |case| by(case, Way { places: branches_alone, ..RIGHT })),
    ("looks at the outputs of all lines", |case| by(case, Way { looks_at: |_, _| true, ..RIGHT })),
    ("looks at no output of a head line", |case| by(case, Way { looks_at: |placed, line| placed.places[line] == Place::Bound, ..RIGHT })),
    ("serves a stuck pin of a head line", |case| {
        by(case, Way { serves: |placed, fault| placed.places[fault.line] != Place::Other, ..RIGHT })
    }),
    ("serves a stuck line of a tree", |case| {
        by(case, Way { serves: |placed, fault| placed.serves(fault) || fault.site == Site::Line, ..RIGHT })
    }),
    ("serves no head line", |case| by(case, Way { serves: |placed, fault| placed.places[fault.line] == Place::Bound, ..RIGHT })),
    ("serves no pin", |case| by(case, Way { serves: |placed, fault| placed.serves(fault) && fault.site == Site::Line, ..RIGHT })),
    ("serves nothing", |case| by(case, Way { serves: |_, _| false, ..RIGHT })),
    ("tries 1 before 0", |case| by(case, Way { decides: |node| node.iter().map(|value| value.map(|value| !value)).collect(), ..RIGHT })),
    ("decides the highest head line first", |case| by(case, Way { decides: |node| node.iter().rev().copied().collect(), ..RIGHT })),
    ("sets a tree by its second source", |case| by(case, Way { sets: second_first, ..RIGHT })),
    ("sets both sources though the first one forces the value", |case| {
        let both: Setting = |gate, value| {
            sets(gate, value, |gate, value| {
                let [first, second, select] = pins(gate, value);
                matches!(gate, Gate::And(..) | Gate::Nand(..) | Gate::Or(..) | Gate::Nor(..)).then_some([first, second.or(first), select])
            })
        };
        by(case, Way { sets: both, ..RIGHT })
    }),
    ("sets the first source alone though it does not force the value", |case| {
        by(case, Way { sets: |gate, value| [pins(gate, value)[0], None, pins(gate, value)[2]], ..RIGHT })
    }),
    ("sets the first source of an XOR to 1", |case| {
        let first_1: Setting = |gate, value| {
            sets(gate, value, |gate, value| match gate {
                Gate::Xor(..) => Some([Some(true), Some(!value), None]),
                Gate::Xnor(..) => Some([Some(true), Some(value), None]),
                _ => None,
            })
        };
        by(case, Way { sets: first_1, ..RIGHT })
    }),
    ("sets an XNOR as an XOR", |case| {
        let as_xor: Setting =
            |gate, value| sets(gate, value, |gate, value| matches!(gate, Gate::Xnor(..)).then_some([Some(false), Some(value), None]));
        by(case, Way { sets: as_xor, ..RIGHT })
    }),
    ("sets a selector by select 1", |case| {
        let select_1: Setting =
            |gate, value| sets(gate, value, |gate, value| matches!(gate, Gate::Selector(..)).then_some([None, Some(value), Some(true)]));
        by(case, Way { sets: select_1, ..RIGHT })
    }),
    ("sets both sources of a selector", |case| {
        let both: Setting =
            |gate, value| sets(gate, value, |gate, value| matches!(gate, Gate::Selector(..)).then_some([Some(value), Some(value), None]));
        by(case, Way { sets: both, ..RIGHT })
    }),
    ("fills its test with 0", |case| {
        at_heads(case, |_, _, seen| {
            if test(seen).is_some() {
                seen.lent[0].u8().iter_mut().filter(|value| **value == 2).for_each(|value| *value = 0);
            }
        })
    }),
    ("counts the nodes of the search over patterns", |case| {
        at_heads(case, |placed, fault, seen| {
            let count = search_circuit(placed.circuit, fault, case.budget).nodes;
            seen.answer[8..16].copy_from_slice(&count.to_le_bytes());
        })
    }),
    ("invents its node count", |case| {
        at_heads(case, |_, _, seen| {
            let count = nodes(seen) + 1;
            seen.answer[8..16].copy_from_slice(&count.to_le_bytes());
        })
    }),
    ("leaves the work of its test, with the trees simulated", |case| {
        at_heads(case, |placed, fault, seen| {
            if let Some(test) = test(seen) {
                seen.lent[1] = placed.circuit.work(&test, fault).into();
            }
        })
    }),
    ("leaves the work of its start", |case| {
        at_heads(case, |placed, fault, seen| {
            let start = vec![None; placed.heads().count()];
            let [good, faulty] = RIGHT.halves(placed, &start, fault);
            seen.lent[1] = bytes(&good, &faulty).into();
        })
    }),
    ("shows a stuck head line as it is in the good circuit", |case| {
        at_heads(case, |placed, fault, seen| {
            if placed.places[fault.line] == Place::Head && case.budget > 0 {
                let work = seen.lent[1].u8();
                work[placed.places.len() + fault.line] = work[fault.line];
            }
        })
    }),
    ("writes the test buffer without a test", |case| {
        at_heads(case, |_, _, seen| {
            if test(seen).is_none() {
                seen.lent[0].u8().fill(2);
            }
        })
    }),
    ("writes the test buffer though something is refused", written_though_refused),
];
