//! Selectors with their sources exchanged.
use cases::circuits::SELECTOR;

/// The same circuit with the sources of each selector the other way round.
pub fn exchanged(circuit: &[u8]) -> Vec<u8> {
    let mut circuit = circuit.to_vec();
    circuit.chunks_exact_mut(8).filter(|record| record[0] == SELECTOR).for_each(|record| record[2..6].rotate_left(2));
    circuit
}
