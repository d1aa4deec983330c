//! Dictionary makers for clocked circuits that are wrong in one way each.
use super::answered::{refuse, set_number, then};
use super::but_for::{but_for, Wrong};
use super::changed::{accepted, written_though_refused};
use super::harness::{Case, UnfoldDictionary};
use super::rules::Rule;
use cases::faults::inputs;
use second::circuit::Gate;
use second::clocked::{Run, State};
use second::dictionary::entry;
use second::entries::{self, Seen};
use second::pattern::read_all;
use second::unfold_dictionary::Given;
use second::values::bytes;
use second::{Circuit, Clocked, Entry, Fault, Site, Value};

fn given(case: &UnfoldDictionary) -> Given {
    let clocked = Clocked::read(&case.circuit, &case.states, case.steps).expect("accepted");
    Given::read(clocked, &case.faults, &case.patterns).expect("accepted")
}

/// Good and faulty values where something is compared.
type Outputs = [(Value, Value)];

fn right(outputs: &Outputs) -> Entry {
    entry(outputs.iter().copied())
}

/// How a clocked circuit runs under a pattern, with or without a fault.
trait Runs: Fn(&Clocked, &[Value], Option<Fault>) -> Run {}
impl<F: Fn(&Clocked, &[Value], Option<Fault>) -> Run> Runs for F {}

/// Where it is accepted, with table and work memory by other runs, of which other values are compared, in another way.
fn by(case: &UnfoldDictionary, run: impl Runs, compared: fn(&Clocked, &Run) -> Vec<Value>, entry: fn(&Outputs) -> Entry) -> Seen {
    accepted(case, |seen| {
        let Given { clocked, faults, patterns } = given(case);
        let both = |pattern: &[Value], fault| [run(&clocked, pattern, None), run(&clocked, pattern, Some(fault))];
        let entry = |pattern: &[Value], fault| {
            let [good, faulty] = both(pattern, fault).map(|run| compared(&clocked, &run));
            entry(&good.into_iter().zip(faulty).collect::<Vec<_>>()) as u8
        };
        *seen.lent[0].u8() = patterns.iter().flat_map(|pattern| faults.iter().map(|&fault| entry(pattern, fault))).collect();
        let [good, faulty] = both(patterns.last().expect("a pattern"), *faults.last().expect("a fault"));
        *seen.lent[1].u8() = bytes(&good.concat(), &faulty.concat());
    })
}

fn running(case: &UnfoldDictionary, run: impl Runs) -> Seen {
    by(case, run, Clocked::compared, right)
}

fn comparing(case: &UnfoldDictionary, compared: fn(&Clocked, &Run) -> Vec<Value>) -> Seen {
    by(case, Clocked::run, compared, right)
}

fn judging(case: &UnfoldDictionary, entry: fn(&Outputs) -> Entry) -> Seen {
    by(case, Clocked::run, Clocked::compared, entry)
}

/// What a state line takes at a clock.
fn clocked(before: &Run, state: State) -> Option<Value> {
    before.last().map(|values| values[state.data])
}

/// By another gate rule.
pub fn by_rule(case: &UnfoldDictionary, rule: Rule) -> Seen {
    running(case, |circuit: &Clocked, pattern: &[Value], fault| circuit.run_by(rule, clocked, pattern, |_| fault))
}

/// With the fault in some steps only.
fn stuck_in(case: &UnfoldDictionary, is_there: fn(&Clocked, Fault, usize) -> bool) -> Seen {
    running(case, |circuit: &Clocked, pattern: &[Value], fault: Option<Fault>| {
        circuit.run_by(Gate::value, clocked, pattern, |step| fault.filter(|&fault| is_there(circuit, fault, step)))
    })
}

/// With states that go by another rule.
fn clocking(case: &UnfoldDictionary, clock: fn(&Run, State) -> Option<Value>) -> Seen {
    running(case, |circuit: &Clocked, pattern: &[Value], fault| circuit.run_by(Gate::value, clock, pattern, |_| fault))
}

/// With states that are read off another run, given the steps that are done.
fn reading(case: &UnfoldDictionary, run: fn(&Clocked, &[Value], Option<Fault>) -> Run, step: fn(usize) -> usize) -> Seen {
    running(case, |circuit: &Clocked, pattern: &[Value], fault| {
        let other = run(circuit, pattern, fault);
        let clock = |before: &Run, state: State| (!before.is_empty()).then(|| other[step(before.len())][state.data]);
        circuit.run_by(Gate::value, clock, pattern, |_| fault)
    })
}

/// With other patterns, made of the values of step 1, each with whether it is a state line's, and of those of the later steps.
fn with_patterns(case: &UnfoldDictionary, change: impl Fn(Vec<(bool, u8)>, Vec<Vec<u8>>) -> Vec<u8>) -> Seen {
    accepted(case, |seen| {
        let Clocked { circuit, states, .. } = given(case).clocked;
        let is_state: Vec<bool> = circuit.inputs().map(|line| states.iter().any(|state| state.line == line)).collect();
        let (all, free) = (is_state.len(), is_state.len() - states.len());
        let changed = |pattern: &[u8]| {
            let (first, later) = pattern.split_at(all);
            let later = if free == 0 { vec![] } else { later.chunks_exact(free).map(<[_]>::to_vec).collect() };
            change(is_state.iter().copied().zip(first.iter().copied()).collect(), later)
        };
        let each = all + (case.steps as usize - 1) * free;
        *seen = but_for(case, |case| case.patterns = case.patterns.chunks_exact(each).flat_map(changed).collect());
    })
}

/// With this value for each state line in step 1.
fn with_first_state(case: &UnfoldDictionary, value: u8) -> Seen {
    with_patterns(case, |first, later| {
        let first = first.into_iter().map(|(is_state, old)| if is_state { value } else { old });
        first.chain(later.concat()).collect()
    })
}

/// The values of some lines in a step.
fn at(values: &[Value], lines: impl Iterator<Item = usize>) -> Vec<Value> {
    lines.map(|line| values[line]).collect()
}

fn data(circuit: &Clocked) -> impl Iterator<Item = usize> + '_ {
    circuit.states.iter().map(|state| state.data)
}

/// All outputs of all steps, and these values.
fn outputs_and(circuit: &Clocked, run: &Run, more: Vec<Value>) -> Vec<Value> {
    [run.iter().flat_map(|values| at(values, circuit.circuit.outputs())).collect(), more].concat()
}

/// The values of each step, as bytes.
type Steps = Vec<Vec<u8>>;

/// The work memory, where it is accepted, cut into steps, good and faulty, and put together in another way.
fn with_work(case: &UnfoldDictionary, change: fn(Steps, Steps) -> Vec<u8>) -> Seen {
    accepted(case, |seen| {
        let steps: Steps = seen.lent[1].u8().chunks_exact(case.circuit.len() / 8).map(<[_]>::to_vec).collect();
        let (good, faulty) = steps.split_at(case.steps as usize);
        *seen.lent[1].u8() = change(good.to_vec(), faulty.to_vec());
    })
}

/// The values of each line in all steps, one line after the other.
fn by_line(steps: &[Vec<u8>]) -> Vec<u8> {
    (0..steps[0].len()).flat_map(|line| steps.iter().map(move |values| values[line])).collect()
}

/// What is left in the work memory by the same call with some of its faults or patterns.
fn with_work_of(case: &UnfoldDictionary, change: fn(&mut UnfoldDictionary, usize)) -> Seen {
    accepted(case, |seen| {
        let each = given(case).clocked.inputs();
        let mut other = case.clone();
        change(&mut other, each);
        other.table.resize(other.faults.len() / 8 * (other.patterns.len() / each), 7);
        seen.lent[1] = other.second().lent[1].clone();
    })
}

/// The same bytes read with another number of inputs.
fn are_patterns(case: &UnfoldDictionary, each: usize) -> bool {
    read_all(&case.patterns, each).is_ok()
}

/// The refusal of a fault is none, if this holds of its record.
fn taking_fault(case: &UnfoldDictionary, holds: fn(&UnfoldDictionary, &[u8], usize) -> bool) -> Seen {
    then(case, 7, |seen| {
        let fault = &case.faults[8 * usize::from(seen.answer[0])..][..8];
        if holds(case, fault, usize::from(u16::from_le_bytes([fault[0], fault[1]]))) {
            seen.returned = 0;
        }
    })
}

/// Nine steps are run too, where everything else is right for them.
fn nine_steps(case: &UnfoldDictionary) -> Seen {
    then(case, 21, |seen| {
        let Ok(eight) = Clocked::read(&case.circuit, &case.states, 8) else { return };
        if case.steps == 9 {
            let nine = Ok(Clocked { steps: 9, ..eight });
            *seen = entries::unfold_dictionary(nine, &case.faults, &case.patterns, &case.table, &case.work, &case.answer);
        }
    })
}

/// Where one of these is refused, the faults are looked at before.
fn faults_before(case: &UnfoldDictionary, later: &[u32]) -> Seen {
    let mut seen = case.second();
    if later.contains(&seen.returned) && seen.answer.len() == 32 {
        let circuit = Circuit::read(&case.circuit).expect("sound");
        if let Err(refusal) = Fault::read_all(&circuit, &case.faults, 256) {
            refuse(&mut seen, refusal.number, refusal.place);
        }
    }
    seen
}

/// By the steps in which the fault is; by what states take; by what is read of patterns; by what is compared, and how; by where things are laid;
/// by what is refused.
pub const PROGRAMS: [Wrong<UnfoldDictionary>; 51] = [
    ("has the fault in the last step only", |case| stuck_in(case, |circuit, _, step| step + 1 == circuit.steps)),
    ("has the fault in the first step only", |case| stuck_in(case, |_, _, step| step == 0)),
    ("has the fault in all steps but the first", |case| stuck_in(case, |_, _, step| step > 0)),
    ("has the fault in all steps but the last", |case| stuck_in(case, |circuit, _, step| circuit.steps == 1 || step + 1 < circuit.steps)),
    ("has the fault in every other step", |case| stuck_in(case, |_, _, step| step % 2 == 0)),
    ("runs nine steps", nine_steps),
    ("lets go of a stuck state line at the first clock", |case| {
        stuck_in(case, |circuit, fault, step| step == 0 || circuit.states.iter().all(|state| state.line != fault.line))
    }),
    ("lets go of a stuck pin at the first clock", |case| stuck_in(case, |_, fault, step| step == 0 || fault.site == Site::Line)),
    ("lets go of a stuck line at the first clock", |case| stuck_in(case, |_, fault, step| step == 0 || fault.site != Site::Line)),
    // states
    ("reads a state line from the step before last", |case| {
        clocking(case, |before, state| before.len().checked_sub(1).map(|last| before[last.saturating_sub(1)][state.data]))
    }),
    ("reads a state line from its own step", |case| reading(case, Clocked::run, |done| done)),
    ("reads a state line from step 1 in each", |case| clocking(case, |before, state| before.first().map(|values| values[state.data]))),
    ("takes the state of step 2 from the pattern", |case| clocking(case, |before, state| before.first().map(|values| values[state.line]))),
    ("keeps the state from step 2 on", |case| {
        clocking(case, |before, state| before.first().map(|first| before.get(1).map_or(first[state.data], |values| values[state.line])))
    }),
    ("reads the good states in the faulty circuit", |case| {
        reading(case, |circuit, pattern, _| circuit.run(pattern, None), |done| done - 1)
    }),
    ("takes X in a state for 0", |case| clocking(case, |before, state| clocked(before, state).map(|value| value.or(Some(false))))),
    ("takes X in a state for 1", |case| clocking(case, |before, state| clocked(before, state).map(|value| value.or(Some(true))))),
    ("forgets the state at a clock", |case| clocking(case, |before, _| before.last().map(|_| None))),
    ("begins with a state of X", |case| with_first_state(case, 2)),
    ("begins with a state of 0", |case| with_first_state(case, 0)),
    // patterns
    ("reads the inputs of the later steps from the last on", |case| {
        with_patterns(case, |first, mut later| {
            later.reverse();
            first.into_iter().map(|(_, value)| value).chain(later.concat()).collect()
        })
    }),
    ("gives every step the inputs of step 1", |case| {
        with_patterns(case, |first, later| {
            let free: Vec<u8> = first.iter().filter(|(is_state, _)| !is_state).map(|&(_, value)| value).collect();
            first.iter().map(|&(_, value)| value).chain(free.repeat(later.len())).collect()
        })
    }),
    ("reads the first state before the other inputs", |case| {
        with_patterns(case, |first, later| {
            let mut values = first.iter().map(|&(_, value)| value);
            let states: Vec<u8> = values.by_ref().take(first.iter().filter(|(is_state, _)| *is_state).count()).collect();
            let (mut states, mut free) = (states.into_iter(), values);
            let mixed: Vec<u8> =
                first.iter().map(|&(is_state, _)| if is_state { states.next() } else { free.next() }.expect("a value")).collect();
            mixed.into_iter().chain(later.concat()).collect()
        })
    }),
    // what is compared
    ("compares the data lines of every step", |case| {
        comparing(case, |circuit, run| outputs_and(circuit, run, run.iter().flat_map(|values| at(values, data(circuit))).collect()))
    }),
    ("compares the data lines of no step", |case| comparing(case, |circuit, run| outputs_and(circuit, run, vec![]))),
    ("compares the data lines of step 1", |case| comparing(case, |circuit, run| outputs_and(circuit, run, at(&run[0], data(circuit))))),
    ("compares the state lines of the last step", |case| {
        comparing(case, |circuit, run| {
            outputs_and(circuit, run, at(run.last().expect("a step"), circuit.states.iter().map(|state| state.line)))
        })
    }),
    ("compares the outputs of the last step only", |case| {
        comparing(case, |circuit, run| {
            let last = run.last().expect("a step");
            [at(last, circuit.circuit.outputs()), at(last, data(circuit))].concat()
        })
    }),
    ("compares the outputs of step 1 only", |case| {
        comparing(case, |circuit, run| [at(&run[0], circuit.circuit.outputs()), at(run.last().expect("a step"), data(circuit))].concat())
    }),
    ("compares the last step's data lines in place of its outputs", |case| {
        comparing(case, |circuit, run| {
            let (last, before) = run.split_last().expect("a step");
            [before.iter().flat_map(|values| at(values, circuit.circuit.outputs())).collect(), at(last, data(circuit))].concat()
        })
    }),
    ("compares no output that is a state line", |case| {
        comparing(case, |circuit, run| {
            let is_state = |line: &usize| circuit.states.iter().any(|state| state.line == *line);
            let outputs = run.iter().flat_map(|values| at(values, circuit.circuit.outputs().filter(|line| !is_state(line))));
            outputs.chain(at(run.last().expect("a step"), data(circuit))).collect()
        })
    }),
    // how
    ("masks nothing: X in the good circuit makes unknown", |case| {
        judging(case, |outputs| match right(outputs) {
            Entry::Pass if outputs.iter().any(|(good, _)| good.is_none()) => Entry::Unknown,
            entry => entry,
        })
    }),
    ("passes a faulty X where the good value is known", |case| {
        judging(case, |outputs| match right(outputs) {
            Entry::Unknown => Entry::Pass,
            entry => entry,
        })
    }),
    ("lets an unknown output hide one that differs", |case| {
        judging(case, |outputs| match outputs.iter().any(|(good, faulty)| good.is_some() && faulty.is_none()) {
            true => Entry::Unknown,
            false => right(outputs),
        })
    }),
    // where
    ("leaves good and faulty values of one step after the other", |case| {
        with_work(case, |good, faulty| good.into_iter().zip(faulty).flat_map(|(good, faulty)| [good, faulty]).collect::<Vec<_>>().concat())
    }),
    ("leaves the values line by line", |case| with_work(case, |good, faulty| [by_line(&good), by_line(&faulty)].concat())),
    ("leaves the faulty values first", |case| with_work(case, |good, faulty| [faulty, good].concat().concat())),
    ("leaves the good values twice", |case| with_work(case, |good, _| [good.clone(), good].concat().concat())),
    ("leaves the work of the first fault", |case| with_work_of(case, |case, _| case.faults.truncate(8))),
    ("leaves the work of the first pattern", |case| with_work_of(case, |case, each| case.patterns.truncate(each))),
    ("lays the table fault by fault", |case| {
        accepted(case, |seen| {
            let faults = case.faults.len() / 8;
            let table = seen.lent[0].u8().clone();
            *seen.lent[0].u8() = (0..faults).flat_map(|fault| table.iter().skip(fault).step_by(faults).copied()).collect();
        })
    }),
    // what is refused
    ("checks the patterns against the clocked inputs", |case| {
        let fits = are_patterns(case, inputs(&case.circuit).max(1));
        match case.second() {
            seen @ Seen { returned: 0, .. } if fits => seen,
            Seen { returned: 0, .. } => but_for(case, |case| case.patterns.clear()),
            _ => then(case, 8, |seen| seen.returned = 8 * u32::from(!fits)),
        }
    }),
    ("checks the patterns against the inputs of all steps, the state lines counted in each", |case| {
        then(case, 0, |seen| {
            if !are_patterns(case, case.steps as usize * inputs(&case.circuit)) {
                *seen = but_for(case, |case| case.patterns.clear());
            }
        })
    }),
    ("checks the faults against the unfolded circuit", |case| {
        taking_fault(case, |case, fault, line| {
            let each = case.circuit.len() / 8;
            (each..each * case.steps as usize).contains(&line) && fault[2] == 0 && fault[3] <= 1 && fault[4..] == [0; 4]
        })
    }),
    ("lets a state line have a pin", |case| {
        taking_fault(case, |case, fault, line| {
            let is_state = cases::clocked::pairs(&case.states).iter().any(|pair| pair[1] == line);
            is_state && fault[2] == 1 && fault[3] <= 1 && fault[4..] == [0; 4]
        })
    }),
    ("looks at the faults before steps and states", |case| faults_before(case, &[21, 18])),
    ("looks at the faults before the sizes", |case| faults_before(case, &[19])),
    ("takes a work memory of one step", |case| {
        then(case, 10, |seen| {
            if case.work.len() == case.circuit.len() / 4 {
                seen.returned = 0;
            }
        })
    }),
    ("gives the pattern in place of the byte", |case| {
        then(case, 9, |seen| {
            let place = case.patterns.iter().position(|&value| value > 2).expect("a bad byte");
            let each = Clocked::read(&case.circuit, &case.states, case.steps).expect("accepted").inputs();
            set_number(seen, place / each);
        })
    }),
    ("answers the number of lines", |case| accepted(case, |seen| set_number(seen, case.work.len() / 2))),
    ("writes the table though something is refused", written_though_refused),
];
