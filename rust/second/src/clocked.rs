//! Clocked circuits: how they are read, and how they run, a step at a time.
use crate::circuit::{Circuit, Gate};
use crate::fault::Fault;
use crate::refusal::{ensure, refusal, Refusal};
use crate::values::Value;

/// The most steps that a clocked circuit runs.
pub const MOST_STEPS: u64 = 8;

/// At each clock the state line takes what the data line has.
#[derive(Clone, Copy, Debug, PartialEq, Eq)]
pub struct State {
    pub data: usize,
    pub line: usize,
}

/// A circuit, its states, and how many steps it runs.
#[derive(Clone, Debug, PartialEq, Eq)]
pub struct Clocked {
    pub circuit: Circuit,
    pub states: Vec<State>,
    pub steps: usize,
}

/// The values of all lines in each step.
pub type Run = Vec<Vec<Value>>;

impl State {
    /// The state, if its record names lines of the circuit, the second an input that is no earlier record's state line.
    fn read(circuit: &Circuit, earlier: &[State], record: &[u8]) -> Option<State> {
        let [data, line] = [0, 2].map(|at| usize::from(u16::from_le_bytes([record[at], record[at + 1]])));
        let is_input = circuit.lines.get(line)?.gate == Gate::Input;
        let is_new = earlier.iter().all(|state| state.line != line);
        (data < circuit.lines.len() && is_input && is_new).then_some(State { data, line })
    }

    /// Reads the states of a circuit. Refusal 18.
    pub fn read_all(circuit: &Circuit, bytes: &[u8]) -> Result<Vec<State>, Refusal> {
        ensure(bytes.len().is_multiple_of(4), 18)?;
        bytes.chunks_exact(4).try_fold(vec![], |earlier, record| {
            let state = State::read(circuit, &earlier, record).ok_or(refusal(18, earlier.len()))?;
            Ok([earlier, vec![state]].concat())
        })
    }
}

impl Clocked {
    /// Reads a clocked circuit. Refusals 1, 2, 4, 5, 21, 18 and 19.
    pub fn read(circuit: &[u8], states: &[u8], steps: u64) -> Result<Clocked, Refusal> {
        let circuit = Circuit::read(circuit)?;
        ensure((1..=MOST_STEPS).contains(&steps), 21)?;
        let states = State::read_all(&circuit, states)?;
        let clocked = Clocked { circuit, states, steps: steps as usize };
        ensure(clocked.lines() <= 2048 && clocked.inputs() <= 64, 19)?;
        Ok(clocked)
    }

    /// How many lines all its steps have.
    pub fn lines(&self) -> usize {
        self.steps * self.circuit.lines.len()
    }

    /// How many values a pattern has: all inputs of the first step, and then those of each later step that are no state lines.
    pub fn inputs(&self) -> usize {
        let each = self.circuit.inputs().count();
        each + (self.steps - 1) * (each - self.states.len())
    }

    /// How it runs under a pattern, with or without a fault, which is there in every step.
    pub fn run(&self, pattern: &[Value], fault: Option<Fault>) -> Run {
        let clocked = |before: &Run, state: State| before.last().map(|values| values[state.data]);
        self.run_by(Gate::value, clocked, pattern, |_| fault)
    }

    /// The same where gates go by this rule, a state line by another that is given the steps before, and the pattern where that gives nothing;
    /// and where each step, from 0, has a fault of its own.
    pub fn run_by(
        &self,
        rule: fn(Gate<Value>) -> Value,
        clock: impl Fn(&Run, State) -> Option<Value>,
        pattern: &[Value],
        fault: impl Fn(usize) -> Option<Fault>,
    ) -> Run {
        let mut pattern = pattern.iter().copied();
        let mut run = vec![];
        for step in 0..self.steps {
            let state_of = |line| self.states.iter().find(|state| state.line == line).and_then(|&state| clock(&run, state));
            let mut input = |line| state_of(line).unwrap_or_else(|| pattern.next().expect("a value for each input"));
            let given = |line: usize| (self.circuit.lines[line].gate == Gate::Input).then(|| input(line));
            let values = self.circuit.values_given(rule, given, fault(step));
            run.push(values);
        }
        run
    }

    /// What is compared of a run: the outputs of every step, and the data lines of the last.
    pub fn compared(&self, run: &Run) -> Vec<Value> {
        let outputs = run.iter().flat_map(|values| self.circuit.outputs().map(|line| values[line]));
        let data = self.states.iter().map(|state| run[self.steps - 1][state.data]);
        outputs.chain(data).collect()
    }
}
