//! Memory that a test lends.

/// What slices are of, and what stands around them.
pub trait Element: Copy + PartialEq {
    const GUARD: Self;
}

macro_rules! elements {
    ($($element:ident $guard:expr,)*) => { $(impl Element for $element {
        const GUARD: Self = $guard;
    })* };
}
elements!(u8 0xa5, i32 0x5a5a_a5a5, u32 0xa5a5_5a5a, u64 0xa5a5_a5a5_5a5a_5a5a, f64 -1.234_567e-89,);

/// Elements between guards of sixteen elements on either side.
pub struct Lent<T> {
    all: Vec<T>,
}

const GUARD: usize = 16;

impl<T: Element> Lent<T> {
    pub fn new(inside: &[T]) -> Lent<T> {
        let mut all = vec![T::GUARD; GUARD];
        all.extend(inside);
        all.extend([T::GUARD; GUARD]);
        Lent { all }
    }

    /// What is lent.
    pub fn inside(&mut self) -> &mut [T] {
        let end = self.all.len() - GUARD;
        &mut self.all[GUARD..end]
    }

    /// What the memory holds afterwards. The guards must stand.
    pub fn back(&self) -> &[T] {
        assert!(self.guards_stand(), "something was written outside of what was lent");
        &self.all[GUARD..self.all.len() - GUARD]
    }

    fn guards_stand(&self) -> bool {
        let (before, rest) = self.all.split_at(GUARD);
        let behind = &rest[rest.len() - GUARD..];
        before.iter().chain(behind).all(|&element| element == T::GUARD)
    }
}

#[cfg(test)]
mod tests {
    use super::*;

    fn guards_see_what_is_written_outside<T: Element>(inside: [T; 3], other: T) {
        for place in 0..2 * GUARD + 3 {
            let mut lent = Lent::new(&inside);
            lent.all[place] = other;
            let inside = (GUARD..GUARD + 3).contains(&place);
            assert_eq!(lent.guards_stand(), inside, "place {place}");
        }
    }

    #[test]
    fn guards_of_every_type() {
        guards_see_what_is_written_outside([1u8, 2, 3], 0);
        guards_see_what_is_written_outside([1i32, 2, 3], 0);
        guards_see_what_is_written_outside([1u32, 2, 3], 0);
        guards_see_what_is_written_outside([1u64, 2, 3], 0);
        guards_see_what_is_written_outside([1.0, 2.0, 3.0], f64::NAN);
    }
}
