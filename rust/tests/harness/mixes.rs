//! Counts of what lent bytes hold that are 0, 1 or 2.
use second::entries::Seen;
use second::Slice;

/// What each of 0, 1 and 2 adds to the number of a mix that has it.
pub const OF: [u32; 3] = [100, 200, 400];

/// The number of the refusal, or of the mix in the bytes that are lent first.
pub fn mix_or_refusal(seen: &Seen) -> u32 {
    match (seen.returned, &seen.lent[0]) {
        (0, Slice::U8(bytes)) => (0..).zip(OF).filter(|(number, _)| bytes.contains(number)).map(|(_, adds)| adds).sum(),
        (0, other) => panic!("{other:?} is no memory of bytes"),
        (refusal, _) => refusal,
    }
}
