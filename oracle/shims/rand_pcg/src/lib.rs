//! Stand-in for the crate `rand_pcg`: a generator whose draws are known beforehand.

use std::ops::Range;

use rand::{RngExt, SeedableRng, ThreadRng};

/// Draws a number from 0 to 6.
#[derive(Debug, Clone)]
pub enum Pcg32 {
    /// The draws of a list, modulo 7, over and over.
    Recorded {
        /// The list.
        draws: [u8; 8],
        /// The place of the next draw in it.
        next: usize,
    },
    /// Marsaglia's xorshift generator of 32 bits, with the shifts 13, 17 and 5; a draw is the state
    /// after a step, modulo 7. The state is never 0.
    Xorshift(u32),
}

impl Pcg32 {
    /// The draws of the list, from its start.
    pub fn recorded(draws: [u8; 8]) -> Self {
        Self::Recorded { draws, next: 0 }
    }

    /// The draws of the generator with this seed; a zero seed is read as 1.
    pub fn xorshift(seed: u32) -> Self {
        Self::Xorshift(seed.max(1))
    }

    fn draw(&mut self) -> u8 {
        match self {
            Self::Recorded { draws, next } => {
                let drawn = draws[*next] % 7;
                *next = (*next + 1) % draws.len();
                drawn
            }
            Self::Xorshift(state) => {
                *state ^= *state << 13;
                *state ^= *state >> 17;
                *state ^= *state << 5;
                (*state % 7) as u8
            }
        }
    }
}

impl SeedableRng for Pcg32 {
    fn from_rng(_: &mut ThreadRng) -> Self {
        Self::recorded([0; 8])
    }
}

impl RngExt for Pcg32 {
    fn random_range(&mut self, range: Range<u8>) -> u8 {
        assert_eq!(range, 0..7, "the draws are made for this range alone");
        self.draw()
    }
}
