//! A small source of random numbers, the same for the same seed.

use crate::strategy::{Cents, Side};
use std::ops::RangeInclusive;

/// A small source of random numbers (splitmix64).
pub struct Random {
    state: u64,
}

impl Random {
    pub fn new(seed: u64) -> Random {
        Random { state: seed }
    }

    pub fn number(&mut self) -> u64 {
        self.state = self.state.wrapping_add(0x9e37_79b9_7f4a_7c15);
        let mut z = self.state;
        z = (z ^ (z >> 30)).wrapping_mul(0xbf58_476d_1ce4_e5b9);
        z = (z ^ (z >> 27)).wrapping_mul(0x94d0_49bb_1331_11eb);
        z ^ (z >> 31)
    }

    /// A number from 0 to below another, which is not 0.
    pub fn below(&mut self, end: u64) -> u64 {
        self.number() % end
    }

    pub fn within(&mut self, range: RangeInclusive<i64>) -> i64 {
        let count = (range.end() - range.start()) as u64 + 1;
        range.start() + self.below(count) as i64
    }

    /// True once in so many times.
    pub fn once_in(&mut self, times: u64) -> bool {
        self.below(times) == 0
    }

    pub fn pick<T: Copy>(&mut self, of: &[T]) -> T {
        of[self.below(of.len() as u64) as usize]
    }

    pub fn price(&mut self, range: RangeInclusive<Cents>) -> Cents {
        self.within(i64::from(*range.start())..=i64::from(*range.end())) as Cents
    }

    /// From 1 to a number.
    pub fn up_to(&mut self, most: u32) -> u32 {
        self.below(u64::from(most)) as u32 + 1
    }

    pub fn side(&mut self) -> Side {
        self.pick(&[Side::Buy, Side::Sell])
    }

    pub fn account(&mut self) -> u8 {
        self.pick(&[1, 2])
    }
}
