//! Stand-in for the crate `rand`: what the BBR controller names, with no randomness in it.

use std::ops::Range;

/// The generator that seeds the others. It holds nothing: every draw is chosen by the caller.
pub struct ThreadRng;

/// The generator that seeds the others.
pub fn rng() -> ThreadRng {
    ThreadRng
}

/// Making a generator.
pub trait SeedableRng: Sized {
    /// Makes a generator from another.
    fn from_rng(rng: &mut ThreadRng) -> Self;
}

/// Drawing numbers.
pub trait RngExt {
    /// Draws a number of the range.
    fn random_range(&mut self, range: Range<u8>) -> u8;
}
