//! Budgets for searches.
use cases::Random;

/// A budget around the number of nodes that a search needs.
pub fn around(random: &mut Random, needed: u64) -> u64 {
    let fewer = random.word() % needed;
    random.pick(&[0, 1, fewer, needed - 1, needed, needed + 1, u64::MAX])
}
