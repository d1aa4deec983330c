//! How hard lines are to set.
use crate::raw::{enter, Call};
use crate::refusal::{answered_of, Refusal};

/// For each line its chance of 1 and its chance of 0, a measure for comparing lines: roughly, how likely it is that the line can be given that
/// value where no line is set more than once. The searches of this library do not use it. An input has 1 and 1. A pin sees the chances of the
/// line that it reads, but half of each where two or more pins of the circuit read that line. For 1 an AND has the product of what its pins see,
/// and for 0 the larger; an OR has it the other way round; an XOR has for each value the larger of the two products that give it, and a selector
/// the larger over both values of its select; NOT, NAND, NOR and XNOR exchange the two chances. What is lower than 2^-500 becomes 2^-500, and so
/// every chance is exactly a power of one half. Both buffers have a number for each line. A refusal writes nothing.
///
/// Line 0 is an input, line 1 its NOT, and line 2 the AND of both. Line 0 is read twice, and so each pin there sees half of its chances:
///
/// ```
/// let always_0 = [0, 0, 0, 0, 0, 0, 0, 0, 2, 0, 0, 0, 0, 0, 0, 0, 3, 1, 0, 0, 1, 0, 0, 0];
/// let (mut ones, mut zeros) = ([9.0; 3], [9.0; 3]);
/// ullimaqsu::control(&always_0, &mut ones, &mut zeros)?;
/// assert_eq!((ones, zeros), ([1.0, 0.5, 0.25], [1.0, 0.5, 0.5]));
/// let refusal = ullimaqsu::control(&always_0, &mut ones, &mut zeros[..2]).unwrap_err();
/// assert_eq!(refusal.to_string(), "refusal 10: a lent buffer has not its exact size");
/// # Ok::<(), ullimaqsu::Refusal>(())
/// ```
pub fn control(circuit: &[u8], ones: &mut [f64], zeros: &mut [f64]) -> Result<(), Refusal> {
    let mut area = [0; 32];
    let returned = enter(Call::Control { circuit, ones, zeros, answer: &mut area });
    answered_of(circuit, returned, area).map(|_| ())
}
