//! Circuits with a selector, and by hand what is said of a fault of each.
use crate::circuits::{record, selector, INPUT};
use crate::faults;

/// A circuit and one of its faults.
pub struct Marked {
    pub name: &'static str,
    pub circuit: Vec<u8>,
    pub fault: [u8; 8],
    entries: Vec<(&'static str, char)>,
    /// How the search ends, the nodes that it looks at, and the test if there is one.
    pub outcome: u8,
    pub nodes: u64,
    test: &'static str,
    clauses: &'static str,
}

/// The bytes of values: X is 2.
fn values(letters: &str) -> Vec<u8> {
    letters.bytes().map(|letter| if letter == b'X' { 2 } else { letter - b'0' }).collect()
}

impl Marked {
    pub fn patterns(&self) -> Vec<u8> {
        self.entries.iter().flat_map(|(pattern, _)| values(pattern)).collect()
    }

    pub fn table(&self) -> Vec<u8> {
        self.entries.iter().map(|(_, entry)| "PFU".find(*entry).expect("an entry") as u8).collect()
    }

    pub fn test(&self) -> Vec<u8> {
        values(self.test)
    }

    pub fn words(&self) -> Vec<i32> {
        let clauses = self.clauses.split(['(', ')', '\n']).filter(|clause| !clause.trim().is_empty());
        let literals = |clause: &'static str| clause.split(' ').map(|literal| literal.parse().expect("a literal"));
        clauses.flat_map(|clause| literals(clause).chain([0])).collect()
    }

    pub fn clause_count(&self) -> usize {
        self.clauses.matches('(').count()
    }
}

/// Lines 0, 1 and 2 are inputs, and line 3, the output, selects between the first two by the third.
fn plain() -> Vec<u8> {
    [&record(INPUT, false, 0, 0).repeat(3)[..], &selector(true, 0, 1, 2)].concat()
}

/// One for each: the select pin and the select line stuck, and with them X on the select with equal and with unequal sources; a select that is
/// a source; one line for both sources; one line for all three; a source's pin stuck, so that sources that are equal are so no longer.
pub fn selectors() -> [Marked; 6] {
    let input = record(INPUT, false, 0, 0);
    [
        Marked {
            name: "the select pin stuck at 1: the faulty value is the second source",
            circuit: plain(),
            fault: faults::record(3, 3, true),
            entries: vec![("010", 'F'), ("110", 'P'), ("011", 'P'), ("11X", 'P'), ("01X", 'P'), ("0X0", 'U')],
            outcome: 0,
            nodes: 5,
            test: "010",
            clauses: "(5 -7 1)(5 7 -1)(-5 -7 3)(-5 7 -3)
                (9)
                (-2 1)(2 -1)(-4 3)(4 -3)(-6 5)(6 -5)(9 -8 2)(9 8 -2)(-9 -8 4)(-9 8 -4)
                (-10 7 8)(-10 -7 -8)(10 -7 8)(10 7 -8)
                (10)",
        },
        Marked {
            name: "the select line stuck at 0: the faulty value is the first source",
            circuit: plain(),
            fault: faults::record(2, 0, false),
            entries: vec![("011", 'F'), ("111", 'P'), ("010", 'P'), ("00X", 'P'), ("01X", 'P'), ("X11", 'U')],
            outcome: 0,
            nodes: 6,
            test: "011",
            clauses: "(5 -7 1)(5 7 -1)(-5 -7 3)(-5 7 -3)
                (-9)
                (-2 1)(2 -1)(-4 3)(4 -3)(-6 9)(6 -9)(6 -8 2)(6 8 -2)(-6 -8 4)(-6 8 -4)
                (-10 7 8)(-10 -7 -8)(10 -7 8)(10 7 -8)
                (10)",
        },
        Marked {
            name: "the first source is the select too: an AND; the select pin stuck at 1",
            circuit: [input, input, selector(true, 0, 1, 0)].concat(),
            fault: faults::record(2, 3, true),
            entries: vec![("01", 'F'), ("10", 'P'), ("0X", 'U'), ("X0", 'P'), ("X1", 'P')],
            outcome: 0,
            nodes: 4,
            test: "01",
            clauses: "(1 -5 1)(1 5 -1)(-1 -5 3)(-1 5 -3)
                (7)
                (-2 1)(2 -1)(-4 3)(4 -3)(7 -6 2)(7 6 -2)(-7 -6 4)(-7 6 -4)
                (-8 5 6)(-8 -5 -6)(8 -5 6)(8 5 -6)
                (8)",
        },
        Marked {
            name: "one line for both sources, stuck at 1: the test has X on the select",
            circuit: [input, input, selector(true, 0, 0, 1)].concat(),
            fault: faults::record(0, 0, true),
            entries: vec![("0X", 'F'), ("1X", 'P'), ("XX", 'P'), ("X1", 'P')],
            outcome: 0,
            nodes: 2,
            test: "0X",
            clauses: "(3 -5 1)(3 5 -1)(-3 -5 1)(-3 5 -1)
                (7)
                (-2 7)(2 -7)(-4 3)(4 -3)(4 -6 2)(4 6 -2)(-4 -6 2)(-4 6 -2)
                (-8 5 6)(-8 -5 -6)(8 -5 6)(8 5 -6)
                (8)",
        },
        Marked {
            name: "one line for all three, the select pin stuck at 0: whatever is selected, it is that line",
            circuit: [input, selector(true, 0, 0, 0)].concat(),
            fault: faults::record(1, 3, false),
            entries: vec![("0", 'P'), ("1", 'P'), ("X", 'P')],
            outcome: 1,
            nodes: 3,
            test: "",
            clauses: "(1 -3 1)(1 3 -1)(-1 -3 1)(-1 3 -1)
                (-5)
                (-2 1)(2 -1)(5 -4 2)(5 4 -2)(-5 -4 2)(-5 4 -2)
                (-6 3 4)(-6 -3 -4)(6 -3 4)(6 3 -4)
                (6)",
        },
        Marked {
            name: "the first source's pin stuck at 0: with X on the select, 1 and 1 are seen as 0 and 1",
            circuit: plain(),
            fault: faults::record(3, 1, false),
            entries: vec![("11X", 'U'), ("100", 'F'), ("111", 'P'), ("01X", 'P'), ("00X", 'P')],
            outcome: 0,
            nodes: 9,
            test: "100",
            clauses: "(5 -7 1)(5 7 -1)(-5 -7 3)(-5 7 -3)
                (-9)
                (-2 1)(2 -1)(-4 3)(4 -3)(-6 5)(6 -5)(6 -8 9)(6 8 -9)(-6 -8 4)(-6 8 -4)
                (-10 7 8)(-10 -7 -8)(10 -7 8)(10 7 -8)
                (10)",
        },
    ]
}
