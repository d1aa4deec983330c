//! Chances: how easily a line is set to a value, as powers of one half.
use crate::problem::Problem;
use std::fmt::{self, Display, Formatter};

/// How many halvings of 1 give it: the fewer, the larger the chance. The larger one is the lesser here, and comes first.
#[derive(Clone, Copy, PartialEq, Eq, PartialOrd, Ord, Debug)]
pub struct Chance(u64);

/// The smallest that the library gives: what is smaller becomes this.
pub const FLOOR: Chance = Chance(500);

/// Where the exponent begins in the bits of a number, and the exponent of 1.
const FRACTION: u32 = f64::MANTISSA_DIGITS - 1;
const ONE: u64 = f64::MAX_EXP as u64 - 1;

impl Chance {
    /// Of the number that the library gives a line. Another one than a power of one half would be a defect, and is told.
    pub fn of(value: f64, line: &str) -> Result<Chance, Problem> {
        let says = || {
            format!("line `{line}` has the chance {value:e}, and this is none of 1, 2^-1 and so on to {FLOOR}: the library has a defect")
        };
        Chance::of_bits(value.to_bits()).ok_or_else(|| Problem::Stopped(says()))
    }

    /// A power of one half has no fraction. A sign would stand before the exponent, and make it too large.
    fn of_bits(bits: u64) -> Option<Chance> {
        let (exponent, fraction) = (bits >> FRACTION, bits & ((1 << FRACTION) - 1));
        ONE.checked_sub(exponent).map(Chance).filter(|chance| fraction == 0 && *chance <= FLOOR)
    }
}

impl Display for Chance {
    fn fmt(&self, f: &mut Formatter) -> fmt::Result {
        match self.0 {
            0 => write!(f, "1"),
            halvings => write!(f, "2^-{halvings}"),
        }
    }
}

#[cfg(test)]
mod tests {
    use super::{Chance, Problem, FLOOR, FRACTION, ONE};

    /// The bits of all chances, the largest first.
    fn all() -> impl Iterator<Item = u64> {
        (0..=FLOOR.0).map(|halvings| (ONE - halvings) << FRACTION)
    }

    #[test]
    fn powers_of_one_half() {
        let mut value = 1.0;
        for (halvings, bits) in all().enumerate() {
            let shown = if halvings == 0 { "1".to_string() } else { format!("2^-{halvings}") };
            assert_eq!(Chance::of(value, "a").map(|chance| chance.to_string()), Ok(shown));
            assert_eq!(value.to_bits(), bits);
            value /= 2.0;
        }
    }

    /// With one bit changed each is another one or none: a sign, a fraction, an exponent too large or too small.
    #[test]
    fn no_powers_of_one_half() {
        let mut others = 0;
        for bits in all().flat_map(|bits| (0..u64::BITS).map(move |bit| bits ^ 1 << bit)) {
            assert_eq!(Chance::of_bits(bits).is_some(), all().any(|other| other == bits), "{bits:x}");
            others += usize::from(Chance::of_bits(bits).is_some());
        }
        assert!(others > 1000, "{others}");
        for value in [0.0, -0.0, -1.0, 2.0, 0.75, 2_f64.powi(-501), f64::MIN_POSITIVE, 5e-324, f64::INFINITY, f64::NAN] {
            assert!(Chance::of(value, "a").is_err(), "{value}");
        }
        let says = "line `a` has the chance 3e-1, and this is none of 1, 2^-1 and so on to 2^-500: the library has a defect";
        assert_eq!(Chance::of(0.3, "a"), Err(Problem::Stopped(says.to_string())));
    }
}
