//! Chances in floating point numbers, as the request's words have them, and gate rules that are wrong in one way each.
use super::changed::accepted;
use super::harness::Control;
use second::circuit::{Circuit, Gate, Rules};
use second::control::chance;
use second::entries::Seen;

/// The chances of 1 and of 0.
#[derive(Clone, Copy)]
pub struct Chances {
    pub one: f64,
    pub zero: f64,
}

impl Chances {
    pub fn each(self, change: impl Fn(f64) -> f64) -> Chances {
        Chances { one: change(self.one), zero: change(self.zero) }
    }
}

/// A pin that reads a line.
pub struct Pin<'a> {
    pub circuit: &'a Circuit,
    /// How many pins read each line.
    readings: &'a [usize],
    /// Whose pin it is, which of them, and which line it reads.
    pub line: usize,
    pub number: usize,
    pub source: usize,
}

impl Pin<'_> {
    pub fn readings(&self) -> usize {
        self.readings[self.source]
    }

    /// All pins that read this line belong to one gate.
    pub fn is_of_the_one_gate(&self) -> bool {
        let sources = self.circuit.lines[self.line].gate.sources();
        sources.iter().filter(|&&source| source == self.source).count() == self.readings()
    }
}

/// What a gate makes of the chances at its pins.
pub type Rule = fn(Gate<Chances>) -> Chances;

/// How a program finds the chances.
#[derive(Clone, Copy)]
pub struct Way {
    /// How many pins read each line.
    pub readings: fn(&Circuit) -> Vec<usize>,
    /// What a pin sees of the line that it reads.
    pub sees: fn(&Pin, Chances) -> Chances,
    pub rule: Rule,
    /// What a line has where its gate makes this.
    pub floors: fn(Chances) -> Chances,
}

/// As the request says.
pub const RIGHT: Way = Way {
    readings: |circuit| circuit.readers().iter().map(Vec::len).collect(),
    sees: |pin, chances| if pin.readings() > 1 { half(chances) } else { chances },
    rule,
    floors: |chances| floored(chances, 500),
};

pub fn half(chances: Chances) -> Chances {
    chances.each(|chance| chance * 0.5)
}

/// A chance with more than so many halvings becomes this.
pub fn below(chances: Chances, halvings: u32, instead: f64) -> Chances {
    chances.each(|one| if one < chance(halvings) { instead } else { one })
}

/// No chance has more than so many halvings.
pub fn floored(chances: Chances, halvings: u32) -> Chances {
    below(chances, halvings, chance(halvings))
}

fn not(p: Chances) -> Chances {
    Chances { one: p.zero, zero: p.one }
}

fn and(p: Chances, q: Chances) -> Chances {
    Chances { one: p.one * q.one, zero: p.zero.max(q.zero) }
}

fn or(p: Chances, q: Chances) -> Chances {
    Chances { one: p.one.max(q.one), zero: p.zero * q.zero }
}

fn xor(p: Chances, q: Chances) -> Chances {
    Chances { one: (p.zero * q.one).max(p.one * q.zero), zero: (p.zero * q.zero).max(p.one * q.one) }
}

fn selected(p: Chances, q: Chances, select: Chances) -> Chances {
    let of = |p: f64, q: f64| (select.zero * p).max(select.one * q);
    Chances { one: of(p.one, q.one), zero: of(p.zero, q.zero) }
}

fn rule(gate: Gate<Chances>) -> Chances {
    gate.made(Rules { input: Chances { one: 1.0, zero: 1.0 }, not, and, or, xor, selected })
}

impl Way {
    fn chances(&self, circuit: &Circuit) -> Vec<Chances> {
        let readings = (self.readings)(circuit);
        let mut all: Vec<Chances> = vec![];
        for (line, of) in circuit.lines.iter().enumerate() {
            let sees = |number, source| (self.sees)(&Pin { circuit, readings: &readings, line, number, source }, all[source]);
            let made = (self.rule)(of.gate.over(sees));
            all.push((self.floors)(made));
        }
        all
    }
}

/// What an entry says that goes this way, where the second program accepts.
pub fn by(case: &Control, way: Way) -> Seen {
    accepted(case, |seen| {
        let all = way.chances(&Circuit::read(&case.circuit).expect("accepted"));
        let chances = |of: fn(&Chances) -> f64| all.iter().map(of).collect::<Vec<_>>().into();
        seen.lent = vec![chances(|line| line.one), chances(|line| line.zero)];
    })
}

/// The rule but for gates of one kind.
macro_rules! but {
    ($gate:pat => $made:expr) => {
        |gate| match gate {
            $gate => $made,
            other => rule(other),
        }
    };
}

/// Rules that are wrong in one way each.
pub const RULES: [(&str, Rule); 36] = [
    ("gives inputs one half", but!(Gate::Input => Chances { one: 0.5, zero: 0.5 })),
    ("does not exchange the chances of a NOT", but!(Gate::Not(p) => p)),
    ("takes for a NOT what is left of 1", but!(Gate::Not(p) => p.each(|chance| 1.0 - chance))),
    ("takes half at every buffer", but!(Gate::Buffer(p) => half(p))),
    ("takes an AND for an OR", but!(Gate::And(p, q) => or(p, q))),
    ("takes the larger for the 1 of an AND", but!(Gate::And(p, q) => Chances { one: p.one.max(q.one), ..and(p, q) })),
    ("takes the product for the 0 of an AND", but!(Gate::And(p, q) => Chances { zero: p.zero * q.zero, ..and(p, q) })),
    ("takes the smaller for the 0 of an AND", but!(Gate::And(p, q) => Chances { zero: p.zero.min(q.zero), ..and(p, q) })),
    ("takes the first pin for the 0 of an AND", but!(Gate::And(p, q) => Chances { zero: p.zero, ..and(p, q) })),
    ("takes the second pin for the 0 of an AND", but!(Gate::And(p, q) => Chances { zero: q.zero, ..and(p, q) })),
    (
        "takes the chance that a pin is 0 for the 0 of an AND",
        but!(Gate::And(p, q) => Chances { zero: p.zero + q.zero - p.zero * q.zero, ..and(p, q) }),
    ),
    ("takes a NAND for an AND", but!(Gate::Nand(p, q) => and(p, q))),
    ("takes a NAND for a NOR", but!(Gate::Nand(p, q) => not(or(p, q)))),
    ("takes an OR for an AND", but!(Gate::Or(p, q) => and(p, q))),
    ("takes the product for the 1 of an OR", but!(Gate::Or(p, q) => Chances { one: p.one * q.one, ..or(p, q) })),
    ("takes the larger for the 0 of an OR", but!(Gate::Or(p, q) => Chances { zero: p.zero.max(q.zero), ..or(p, q) })),
    ("takes a NOR for an OR", but!(Gate::Nor(p, q) => or(p, q))),
    ("takes a NOR for a NAND", but!(Gate::Nor(p, q) => not(and(p, q)))),
    ("takes an XOR for an XNOR", but!(Gate::Xor(p, q) => not(xor(p, q)))),
    ("takes an XNOR for an XOR", but!(Gate::Xnor(p, q) => xor(p, q))),
    ("takes the first product for the 1 of an XOR", but!(Gate::Xor(p, q) => Chances { one: p.zero * q.one, ..xor(p, q) })),
    ("takes the second product for the 1 of an XOR", but!(Gate::Xor(p, q) => Chances { one: p.one * q.zero, ..xor(p, q) })),
    ("takes the first product for the 0 of an XOR", but!(Gate::Xor(p, q) => Chances { zero: p.zero * q.zero, ..xor(p, q) })),
    ("takes the second product for the 0 of an XOR", but!(Gate::Xor(p, q) => Chances { zero: p.one * q.one, ..xor(p, q) })),
    (
        "takes the smaller product of an XOR",
        but!(Gate::Xor(p, q) => Chances { one: (p.zero * q.one).min(p.one * q.zero), zero: (p.zero * q.zero).min(p.one * q.one) }),
    ),
    (
        "adds the products of an XOR",
        but!(Gate::Xor(p, q) => Chances { one: p.zero * q.one + p.one * q.zero, zero: p.zero * q.zero + p.one * q.one }),
    ),
    (
        "pairs both chances of one pin at an XOR",
        but!(Gate::Xor(p, q) => Chances { one: (p.zero * p.one).max(q.zero * q.one), ..xor(p, q) }),
    ),
    ("takes the first source of a selector where the select is 1", but!(Gate::Selector(p, q, select) => selected(q, p, select))),
    ("takes the first source of a selector alone", but!(Gate::Selector(p, _, select) => selected(p, p.each(|_| 0.0), select))),
    ("takes the second source of a selector alone", but!(Gate::Selector(_, q, select) => selected(q.each(|_| 0.0), q, select))),
    (
        "takes the larger source of a selector, whatever its select",
        but!(Gate::Selector(p, q, _) => Chances { one: p.one.max(q.one), zero: p.zero.max(q.zero) }),
    ),
    (
        "takes the smaller product of a selector",
        but!(Gate::Selector(p, q, select) => {
            let of = |p: f64, q: f64| (select.zero * p).min(select.one * q);
            Chances { one: of(p.one, q.one), zero: of(p.zero, q.zero) }
        }),
    ),
    (
        "adds the products of a selector",
        but!(Gate::Selector(p, q, select) => {
            let of = |p: f64, q: f64| select.zero * p + select.one * q;
            Chances { one: of(p.one, q.one), zero: of(p.zero, q.zero) }
        }),
    ),
    (
        "multiplies all three at a selector",
        but!(Gate::Selector(p, q, select) => Chances { one: p.one * q.one * select.one, zero: p.zero * q.zero * select.zero }),
    ),
    (
        "selects by the value that the line is to have",
        but!(Gate::Selector(p, q, select) => Chances { one: select.one * p.one.max(q.one), zero: select.zero * p.zero.max(q.zero) }),
    ),
    (
        "needs no select where both sources have the value",
        but!(Gate::Selector(p, q, select) => {
            let chosen = selected(p, q, select);
            Chances { one: chosen.one.max(p.one * q.one), zero: chosen.zero.max(p.zero * q.zero) }
        }),
    ),
];
