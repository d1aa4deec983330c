//! Random numbers that are the same in every run.

/// Marsaglia's xorshift of 64 bits.
pub struct Random(u64);

impl Random {
    /// Another stream of numbers for each seed.
    pub fn new(seed: u64) -> Random {
        let mut random = Random((seed + 1).wrapping_mul(0x9e37_79b9_7f4a_7c15));
        random.word();
        random
    }

    pub fn word(&mut self) -> u64 {
        self.0 ^= self.0 << 13;
        self.0 ^= self.0 >> 7;
        self.0 ^= self.0 << 17;
        self.0
    }

    /// A number below `bound`.
    pub fn below(&mut self, bound: usize) -> usize {
        ((self.word() >> 32) as usize) % bound
    }

    pub fn byte(&mut self) -> u8 {
        (self.word() >> 32) as u8
    }

    /// True once in `times`, on average.
    pub fn once_in(&mut self, times: usize) -> bool {
        self.below(times) == 0
    }

    pub fn pick<T: Copy>(&mut self, from: &[T]) -> T {
        from[self.below(from.len())]
    }

    /// What lent memory holds before a call.
    pub fn junk(&mut self, len: usize) -> Vec<u8> {
        (0..len).map(|_| self.byte()).collect()
    }

    /// The same in words.
    pub fn junk_words(&mut self, len: usize) -> Vec<u64> {
        (0..len).map(|_| self.word()).collect()
    }

    /// The same in floating point numbers: any bits, and often those of a NaN, which may signal, or of a number next to 0.
    pub fn junk_f64(&mut self, len: usize) -> Vec<f64> {
        let exponent = 0x7ff << 52;
        let bits = |word: u64, sort| match sort {
            0 => word | exponent,
            1 => word & !exponent,
            _ => word,
        };
        (0..len).map(|_| f64::from_bits(bits(self.word(), self.below(4)))).collect()
    }
}

/// So many cases, drawn one after the other.
pub fn drawn<T>(seed: u64, count: usize, mut draw: impl FnMut(&mut Random) -> T) -> impl Iterator<Item = T> {
    let mut random = Random::new(seed);
    (0..count).map(move |_| draw(&mut random))
}
