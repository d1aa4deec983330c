//! What the cases of both entries for clocked circuits have.
use crate::harness::Case;
use cases::circuits::selecting;
use cases::clocked::{state, Clocked};
use second::clocked::State;
use second::{Circuit, Refusal};

pub trait Stepped: Case {
    /// The clocked circuit, or what is given for one.
    fn clocked(&self) -> Clocked;

    fn states(&mut self) -> &mut Vec<u8>;
    fn steps(&mut self) -> &mut u64;
}

/// Cases of this entry have it in fields of these names.
macro_rules! stepped {
    ($name:ident) => {
        impl crate::stepped::Stepped for $name {
            fn clocked(&self) -> cases::clocked::Clocked {
                cases::clocked::Clocked { circuit: self.circuit.clone(), states: self.states.clone(), steps: self.steps }
            }

            fn states(&mut self) -> &mut Vec<u8> {
                &mut self.states
            }

            fn steps(&mut self) -> &mut u64 {
                &mut self.steps
            }
        }
    };
}
pub(crate) use stepped;

/// What is wrong with the states of a circuit that is sound.
pub fn wrong_states(clocked: &Clocked) -> Option<Refusal> {
    State::read_all(&Circuit::read(&clocked.circuit).expect("sound"), &clocked.states).err()
}

/// The selector and its two inputs, of which line 1 is a state line that the selector feeds, for two steps.
pub fn selecting_twice() -> Clocked {
    Clocked { circuit: selecting(), states: state(2, 1).to_vec(), steps: 2 }
}

/// A list of what can be wrong with it, in the order in which it is looked for: with the area and the circuit, with steps, states and sizes, and
/// then these.
macro_rules! stepped_defects {
    ($($then:expr),* $(,)?) => {
        crate::defects::defects![
            (21, |case| case.steps = 9),
            (21, |case| case.steps = 0),
            (18, |case| case.states.push(0)),
            (18, |case| case.states[1] = 255),
            (18, |case| case.states[3] = 255),
            (18, |case| case.states[..4].copy_from_slice(&cases::clocked::state(1, 2))),
            (18, |case| case.states.extend(cases::clocked::state(0, 1))),
            (19, |case| case.circuit.extend(cases::circuits::record(cases::circuits::BUFFER, false, 0, 0).repeat(1022))),
            (19, |case| case.circuit.extend(cases::circuits::record(cases::circuits::INPUT, false, 0, 0).repeat(40))),
            $($then),*
        ]
    };
}
pub(crate) use stepped_defects;
