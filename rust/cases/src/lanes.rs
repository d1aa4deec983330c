//! Words that carry a pattern in each bit.

/// What one lane says of each line, as bytes: a line has two words, of those lanes where it is 1 and of those where it is 0.
pub fn lane(words: &[u64], lane: usize) -> Vec<u8> {
    let value = |pair: &[u64]| match [pair[0] >> lane & 1, pair[1] >> lane & 1] {
        [0, 1] => 0,
        [1, 0] => 1,
        [0, 0] => 2,
        _ => panic!("a line is both 1 and 0 in lane {lane}"),
    };
    words.chunks_exact(2).map(value).collect()
}
