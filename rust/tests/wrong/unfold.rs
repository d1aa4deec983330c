//! Unfoldings that are wrong in one way each.
use super::answered::{refuse, set_number, then};
use super::but_for::Wrong;
use super::changed::{accepted, written_though_refused};
use super::harness::Unfold;
use cases::circuits::{record, source, sources, BUFFER, INPUT};
use cases::faults::inputs;
use second::circuit::Gate;
use second::entries::Seen;
use second::Clocked;

fn read(case: &Unfold) -> Clocked {
    Clocked::read(&case.circuit, &case.states, case.steps).expect("accepted")
}

/// A line in one of the steps, from 0, of a clocked circuit.
struct Place<'a> {
    clocked: &'a Clocked,
    step: usize,
    line: usize,
}

impl Place<'_> {
    fn each(&self) -> usize {
        self.clocked.circuit.lines.len()
    }

    fn is_last(&self) -> bool {
        self.step + 1 == self.clocked.steps
    }

    fn is_data(&self) -> bool {
        self.clocked.states.iter().any(|state| state.data == self.line)
    }

    /// The data line of a state line.
    fn data(&self) -> Option<usize> {
        self.clocked.states.iter().find(|state| state.line == self.line).map(|state| state.data)
    }

    fn is_output(&self) -> bool {
        self.clocked.circuit.lines[self.line].output
    }
}

/// Where it is accepted, with each record changed.
fn with_records(case: &Unfold, change: impl Fn(&Place, &mut [u8])) -> Seen {
    accepted(case, |seen| {
        let clocked = read(case);
        let each = clocked.circuit.lines.len();
        for (number, record) in seen.lent[0].u8().chunks_exact_mut(8).enumerate() {
            change(&Place { clocked: &clocked, step: number / each, line: number % each }, record);
        }
    })
}

/// With other outputs.
fn with_outputs(case: &Unfold, output: fn(&Place) -> bool) -> Seen {
    with_records(case, |place, record| record[1] = output(place).into())
}

fn set_source(record: &mut [u8], pin: usize, line: usize) {
    record[2 * pin..2 * pin + 2].copy_from_slice(&(line as u16).to_le_bytes());
}

/// With another record for a state line from the second step on, given its data line.
fn with_states(case: &Unfold, change: fn(&Place, usize, &mut [u8])) -> Seen {
    with_records(case, |place, record| {
        if let Some(data) = place.data().filter(|_| place.step > 0) {
            change(place, data, record);
        }
    })
}

/// With another line for these to read.
fn with_read(case: &Unfold, line: fn(&Place, usize) -> usize) -> Seen {
    with_records(case, |place, record| {
        if let Some(data) = place.data().filter(|_| place.step > 0) {
            set_source(record, 1, line(place, data));
        }
    })
}

/// With something else at the pins of lines that are the circuit's own: all but state lines from the second step on.
fn with_gates(case: &Unfold, change: fn(&Place, &mut [u8])) -> Seen {
    with_records(case, |place, record| {
        if place.step == 0 || place.data().is_none() {
            change(place, record);
        }
    })
}

/// With one source of gates as it is in the circuit.
fn with_pin_of_step_1(case: &Unfold, pin: usize) -> Seen {
    with_records(case, |place, record| {
        if pin <= sources(record[0]) && place.data().is_none() {
            set_source(record, pin, source(record, pin) - place.step * place.each());
        }
    })
}

/// Nine steps are unfolded too, where there is room for them.
fn nine_steps(case: &Unfold) -> Seen {
    then(case, 21, |seen| {
        let Ok(eight) = Clocked::read(&case.circuit, &case.states, 8) else { return };
        let nine = Clocked { steps: 9, ..eight };
        if case.steps == 9 && case.unfolded.len() == 8 * nine.lines() {
            set_number(seen, nine.lines());
            seen.returned = 0;
            seen.lent[0] = nine.unfolded().write().into();
        }
    })
}

/// By the outputs; by what state lines read; by what gates read; by where lines are laid, and what is answered and refused.
pub const PROGRAMS: [Wrong<Unfold>; 34] = [
    ("makes the data lines of every step outputs", |case| with_outputs(case, |place| place.is_output() || place.is_data())),
    ("makes the data lines of no step outputs", |case| with_outputs(case, |place| place.is_output())),
    ("makes the data lines of step 1 outputs", |case| with_outputs(case, |place| place.is_output() || place.step == 0 && place.is_data())),
    ("makes the data lines of the last step but one outputs", |case| {
        with_outputs(case, |place| place.is_output() || place.step + 2 == place.clocked.steps && place.is_data())
    }),
    ("makes the state lines of the last step outputs", |case| {
        with_outputs(case, |place| place.is_output() || place.is_last() && place.data().is_some())
    }),
    ("makes no data line an output that is a state line", |case| {
        with_outputs(case, |place| place.is_output() || place.is_last() && place.is_data() && place.data().is_none())
    }),
    ("makes no data line an output that is an input", |case| {
        let is_input = |place: &Place| place.clocked.circuit.lines[place.line].gate == Gate::Input;
        with_records(case, |place, record| {
            if !place.is_output() && is_input(place) {
                record[1] = 0;
            }
        })
    }),
    ("keeps the outputs of the last step", |case| with_outputs(case, |place| place.is_last() && (place.is_output() || place.is_data()))),
    ("keeps the outputs of step 1", |case| {
        with_outputs(case, |place| place.step == 0 && place.is_output() || place.is_last() && place.is_data())
    }),
    ("makes no output of a state line from step 2 on", |case| {
        with_states(case, |place, _, record| record[1] = (place.is_last() && place.is_data()).into())
    }),
    ("makes each state line from step 2 on an output", |case| with_states(case, |_, _, record| record[1] = 1)),
    ("makes the data lines no outputs but these", |case| {
        with_outputs(case, |place| if place.is_last() && !place.clocked.states.is_empty() { place.is_data() } else { place.is_output() })
    }),
    // state lines
    ("reads a state line from the step before last", |case| {
        with_read(case, |place, data| place.step.saturating_sub(2) * place.each() + data)
    }),
    ("reads a state line from its own step", |case| with_read(case, |place, data| place.step * place.each() + data)),
    ("reads a state line from step 1 in each", |case| with_read(case, |_, data| data)),
    ("reads in each step the state line of the step before", |case| {
        with_read(case, |place, _| (place.step - 1) * place.each() + place.line)
    }),
    ("reads for all state lines the first data line", |case| {
        with_read(case, |place, _| (place.step - 1) * place.each() + place.clocked.states[0].data)
    }),
    ("leaves the state lines inputs in every step", |case| {
        with_states(case, |_, _, record| {
            record[0] = INPUT;
            set_source(record, 1, 0);
        })
    }),
    ("makes buffers of the state lines of step 1 too", |case| {
        with_records(case, |place, line| {
            if let Some(data) = place.data().filter(|_| place.step == 0) {
                line.copy_from_slice(&record(BUFFER, line[1] == 1, data, 0));
            }
        })
    }),
    ("writes the data line as the second source too", |case| with_states(case, |_, _, record| record.copy_within(2..4, 4))),
    ("inverts the state at each clock", |case| with_states(case, |_, _, record| record[0] = BUFFER + 1)),
    // gates
    ("lets the gates of every step read step 1", |case| {
        with_gates(case, |place, record| {
            let old = place.clocked.circuit.write();
            record[2..].copy_from_slice(&old[8 * place.line + 2..][..6]);
        })
    }),
    ("lets the first pin read step 1", |case| with_pin_of_step_1(case, 1)),
    ("lets the second pin read step 1", |case| with_pin_of_step_1(case, 2)),
    ("lets the select pin read step 1", |case| with_pin_of_step_1(case, 3)),
    ("moves the sources that a kind lacks too", |case| {
        with_gates(case, |place, record| {
            (sources(record[0]) + 1..=3).for_each(|pin| set_source(record, pin, place.step * place.each()));
        })
    }),
    ("moves the lowest byte of a source alone", |case| {
        with_gates(case, |place, record| {
            let old = place.clocked.circuit.write();
            (1..=3).for_each(|pin| record[2 * pin + 1] = old[8 * place.line + 2 * pin + 1]);
        })
    }),
    // the whole
    ("lays the steps of each line one after the other", |case| {
        accepted(case, |seen| {
            let (each, steps) = (case.circuit.len() / 8, case.steps as usize);
            let old = seen.lent[0].u8().clone();
            *seen.lent[0].u8() = (0..each * steps).flat_map(|at| old[8 * (at % steps * each + at / steps)..][..8].to_vec()).collect();
        })
    }),
    ("lays the last step first", |case| {
        accepted(case, |seen| {
            let old = seen.lent[0].u8().clone();
            *seen.lent[0].u8() = old.chunks_exact(case.circuit.len()).rev().flatten().copied().collect();
        })
    }),
    ("unfolds nine steps", nine_steps),
    ("answers the lines of one step", |case| accepted(case, |seen| set_number(seen, case.circuit.len() / 8))),
    ("answers the inputs too", |case| accepted(case, |seen| seen.answer[8] = inputs(&case.circuit) as u8)),
    ("looks at the room before the sizes", |case| {
        then(case, 19, |seen| {
            if case.unfolded.len() as u64 != case.steps * case.circuit.len() as u64 {
                refuse(seen, 10, 0);
            }
        })
    }),
    ("writes the records though something is refused", written_though_refused),
];
