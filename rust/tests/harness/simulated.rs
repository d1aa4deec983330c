//! Values as the library simulates them.
use cases::faults;

/// The values of all lines of a circuit under a pattern: the dictionary's work memory begins with them.
pub fn simulated(circuit: &[u8], pattern: &[u8]) -> Vec<u8> {
    let mut work = vec![9; circuit.len() / 4];
    ullimaqsu::dictionary(circuit, &faults::record(0, 0, false), pattern, &mut [9], &mut work).expect("sound");
    work.truncate(circuit.len() / 8);
    work
}
