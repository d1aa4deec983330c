//! What can be wrong with every case that has a table and marks.

/// A list of defects, in the order in which they are looked for.
macro_rules! table_defects {
    () => {
        [
            (10, |case| case.answer.push(0)),
            (12, |case| case.fault_count += 1),
            (12, |case| case.pattern_count = 0),
            (12, |case| case.table.push(0)),
            (13, |case| case.table[2] = 3),
            (10, |case| case.marks.push(0)),
        ]
    };
}
pub(crate) use table_defects;
