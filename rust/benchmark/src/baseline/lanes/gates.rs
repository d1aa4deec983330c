//! The gate rule on words, for 64 patterns at once: by branches over the kind, and by choices without a branch.

/// The lanes in which a line is 1, and those in which it is 0; in the others it is X.
#[derive(Clone, Copy)]
pub struct Lanes {
    pub ones: u64,
    pub zeros: u64,
}

impl Lanes {
    /// Those of the k-th line.
    pub fn of(words: &[[u64; 2]], k: usize) -> Lanes {
        let [ones, zeros] = words[k];
        Lanes { ones, zeros }
    }

    pub fn words(self) -> [u64; 2] {
        [self.ones, self.zeros]
    }

    pub fn stuck(value: u8) -> Lanes {
        let ones = if value == 1 { u64::MAX } else { 0 };
        Lanes { ones, zeros: !ones }
    }

    fn not(self) -> Lanes {
        Lanes { ones: self.zeros, zeros: self.ones }
    }

    fn not_if(self, negated: bool) -> Lanes {
        if negated {
            self.not()
        } else {
            self
        }
    }

    fn and(self, b: Lanes) -> Lanes {
        Lanes { ones: self.ones & b.ones, zeros: self.zeros | b.zeros }
    }

    fn or(self, b: Lanes) -> Lanes {
        Lanes { ones: self.ones | b.ones, zeros: self.zeros & b.zeros }
    }

    fn xor(self, b: Lanes) -> Lanes {
        Lanes { ones: self.ones & b.zeros | self.zeros & b.ones, zeros: self.ones & b.ones | self.zeros & b.zeros }
    }

    /// The source that the select chooses, or what both agree on.
    pub fn selected(self, b: Lanes, select: Lanes) -> Lanes {
        let of = |a: u64, b: u64| select.zeros & a | select.ones & b | a & b;
        Lanes { ones: of(self.ones, b.ones), zeros: of(self.zeros, b.zeros) }
    }
}

pub trait WordGates {
    /// The lanes of a gate, but for a selector, whose pins see `a` and `b`.
    fn lanes(kind: u8, a: Lanes, b: Lanes) -> Lanes;
}

pub struct Branches;

impl WordGates for Branches {
    fn lanes(kind: u8, a: Lanes, b: Lanes) -> Lanes {
        match kind {
            1 => a,
            2 => a.not(),
            3 => a.and(b),
            4 => a.and(b).not(),
            5 => a.or(b),
            6 => a.or(b).not(),
            7 => a.xor(b),
            _ => a.xor(b).not(),
        }
    }
}

pub struct Choices;

impl WordGates for Choices {
    /// An AND or a XOR, of pins that are negated or not, and negated or not. What has one pin is the AND of it with itself.
    fn lanes(kind: u8, a: Lanes, b: Lanes) -> Lanes {
        let of_negated = kind == 5 || kind == 6;
        let (a, b) = (a.not_if(of_negated), b.not_if(of_negated));
        let b = if kind <= 2 { a } else { b };
        let made = if kind >= 7 { a.xor(b) } else { a.and(b) };
        made.not_if(matches!(kind, 2 | 4 | 5 | 8))
    }
}
