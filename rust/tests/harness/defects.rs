//! What can be wrong with every case that has a circuit.

/// A list of defects, in the order in which they are looked for: those of the area and the circuit, among them each field of line 1 and the
/// select of line 2, and then these.
macro_rules! defects {
    ($($then:expr),* $(,)?) => {
        [
            (10, |case| case.answer.push(0)),
            (1, |case| case.circuit.push(0)),
            (2, |case| case.circuit[8] = 10),
            (2, |case| case.circuit[9] = 2),
            (2, |case| case.circuit[11] = 1),
            (2, |case| case.circuit[13] = 1),
            (2, |case| case.circuit[15] = 1),
            (2, |case| case.circuit[22] = 2),
            (4, |case| case.circuit.extend(cases::circuits::record(cases::circuits::INPUT, false, 0, 0).repeat(64))),
            (5, |case| case.circuit.chunks_mut(8).for_each(|record| record[1] &= 2)),
            $($then),*
        ]
    };
}
pub(crate) use defects;
