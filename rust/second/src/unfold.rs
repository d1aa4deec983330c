//! The unfolding of a clocked circuit.
use crate::circuit::{Circuit, Gate, Line};
use crate::clocked::Clocked;
use crate::refusal::{ensure, Refusal};

impl Clocked {
    /// The circuit that has the lines of all steps.
    pub fn unfolded(&self) -> Circuit {
        let each = self.circuit.lines.len();
        let data_of = |line: usize| self.states.iter().find(|state| state.line == line).map(|state| state.data);
        let is_data = |line: usize| self.states.iter().any(|state| state.data == line);
        let line_of = |step: usize, line: usize| {
            let Line { gate, output } = self.circuit.lines[line];
            let gate = match data_of(line) {
                Some(data) if step > 0 => Gate::Buffer((step - 1) * each + data),
                _ => gate.over(|_, source| step * each + source),
            };
            Line { gate, output: output || step + 1 == self.steps && is_data(line) }
        };
        Circuit { lines: (0..self.steps).flat_map(|step| (0..each).map(move |line| line_of(step, line))).collect() }
    }
}

/// The unfolding, lent a buffer of this size: the records.
pub fn unfold(circuit: &[u8], states: &[u8], steps: u64, room: usize) -> Result<Vec<u8>, Refusal> {
    let clocked = Clocked::read(circuit, states, steps)?;
    ensure(room == 8 * clocked.lines(), 10)?;
    Ok(clocked.unfolded().write())
}
