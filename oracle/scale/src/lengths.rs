//! How long the buffers are that are lent.

use oracle::gen::Rng;

/// What is lent above the length that suffices: mostly nothing.
pub fn more(rng: &mut Rng) -> usize {
    let some = rng.below(100);
    rng.pick(&[0, 0, 1, some])
}

/// A length about one that suffices.
pub fn about(rng: &mut Rng, enough: usize) -> usize {
    let less = rng.below(enough + 1);
    rng.pick(&[0, less, enough.saturating_sub(1), enough, enough + 1])
}
