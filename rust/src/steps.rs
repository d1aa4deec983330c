//! Several clock steps of a circuit whose state lines are inputs.
//!
//! State records have four bytes: the data line and then the state line, each a number of two bytes, the lowest first.
use crate::raw::{enter, Call};
use crate::refusal::{answered_of, Refusal};

/// The unfolding of a clocked circuit over 1 to 8 steps: writes the circuit whose lines are those of all steps, one step after the other, and
/// gives their number. From step 2 on a state line is a buffer of its data line one step earlier. The outputs of all steps are outputs, and so
/// are the data lines of the last. The inputs are those of step 1, and then of each later step those that are no state lines. The buffer has
/// eight bytes for each line. A refusal writes nothing.
///
/// Line 0 is the state line, and line 1, its NOT, the data line and the output: at each clock the state changes.
///
/// ```
/// let toggle = [0, 0, 0, 0, 0, 0, 0, 0, 2, 1, 0, 0, 0, 0, 0, 0];
/// let mut unfolded = [9; 32];
/// assert_eq!(ullimaqsu::unfold(&toggle, &[1, 0, 0, 0], 2, &mut unfolded), Ok(4));
/// assert_eq!(unfolded[..16], toggle);
/// assert_eq!(unfolded[16..], [1, 0, 1, 0, 0, 0, 0, 0, 2, 1, 2, 0, 0, 0, 0, 0]);
/// let refusal = ullimaqsu::unfold(&toggle, &[1, 0, 0, 0], 9, &mut unfolded).unwrap_err();
/// assert_eq!(refusal.to_string(), "refusal 21: the number of steps is outside 1 to 8");
/// ```
pub fn unfold(circuit: &[u8], states: &[u8], steps: u64, unfolded: &mut [u8]) -> Result<u64, Refusal> {
    let mut area = [0; 32];
    let returned = enter(Call::Unfold { circuit, states, steps, unfolded, answer: &mut area });
    answered_of(circuit, returned, area).map(|[lines, ..]| lines)
}

/// The dictionary maker for a clocked circuit. The faults are the clocked circuit's, and each is there in all steps at once. A pattern has one
/// byte for each input of the unfolded circuit, in the order of [`unfold`]. Fills the table as [`dictionary`](crate::dictionary) does, with the
/// outputs of the unfolded circuit. The work memory, two bytes for each line of each step, then holds the good and the faulty values of the last
/// pattern with the last fault, step by step. A refusal writes nothing.
///
/// ```
/// let toggle = [0, 0, 0, 0, 0, 0, 0, 0, 2, 1, 0, 0, 0, 0, 0, 0];
/// let state_stuck_at_0 = [0, 0, 0, 0, 0, 0, 0, 0];
/// let (mut table, mut work) = ([9; 3], [9; 8]);
/// ullimaqsu::unfold_dictionary(&toggle, &[1, 0, 0, 0], 2, &state_stuck_at_0, &[0, 1, 2], &mut table, &mut work)?;
/// assert_eq!(table, [1, 1, 0]); // from 0 on it fails in step 2
/// assert_eq!(work, [2, 2, 2, 2, 0, 1, 0, 1]);
/// # Ok::<(), ullimaqsu::Refusal>(())
/// ```
pub fn unfold_dictionary(
    circuit: &[u8],
    states: &[u8],
    steps: u64,
    faults: &[u8],
    patterns: &[u8],
    table: &mut [u8],
    work: &mut [u8],
) -> Result<(), Refusal> {
    let mut area = [0; 32];
    let returned = enter(Call::UnfoldDictionary { circuit, states, steps, faults, patterns, table, work, answer: &mut area });
    answered_of(circuit, returned, area).map(|_| ())
}
