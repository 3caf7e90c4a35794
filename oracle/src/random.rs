//! The numbers behind the lists: the same in every run.

use std::ops::RangeInclusive;

/// Marsaglia's xorshift generator of 64 bits, with the shifts 13, 7 and 17.
pub struct Xorshift(u64);

impl Xorshift {
    /// The generator that every list starts with.
    pub fn new() -> Self {
        Self(0x9E37_79B9_7F4A_7C15)
    }

    fn draw(&mut self) -> u64 {
        self.0 ^= self.0 << 13;
        self.0 ^= self.0 >> 7;
        self.0 ^= self.0 << 17;
        self.0
    }

    /// A number of the range.
    pub fn within(&mut self, range: RangeInclusive<u64>) -> u64 {
        let (low, high) = range.into_inner();
        match (high - low).checked_add(1) {
            Some(size) => low + self.draw() % size,
            None => self.draw(),
        }
    }

    /// True once in so many times.
    pub fn once_in(&mut self, times: u64) -> bool {
        self.within(1..=times) == 1
    }

    /// One of the items.
    pub fn pick<T: Copy>(&mut self, items: &[T]) -> T {
        items[self.within(0..=items.len() as u64 - 1) as usize]
    }

    /// A number of the range at most `distance` from `centre`, or the end of the range that is
    /// nearest to it.
    pub fn near(&mut self, centre: u64, distance: u64, range: RangeInclusive<u64>) -> u64 {
        let around = centre.saturating_sub(distance)..=centre.saturating_add(distance);
        let (low, high) = range.into_inner();
        self.within(around).clamp(low, high)
    }

    /// A number of the range whose count of binary digits is evenly spread.
    pub fn of_any_size(&mut self, range: RangeInclusive<u64>) -> u64 {
        let (low, high) = range.into_inner();
        let digits = self.within(low.max(1).ilog2().into()..=high.ilog2().into());
        let least = 1 << digits;
        self.within(least..=least + (least - 1)).clamp(low, high)
    }
}
