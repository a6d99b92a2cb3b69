//! Random numbers from a seed, the same on every machine.

use std::ops::RangeInclusive;

pub struct Rng {
    state: u64,
}

impl Rng {
    pub fn new(seed: u64) -> Self {
        Rng { state: seed }
    }

    /// The next 64 bits (SplitMix64).
    pub fn bits(&mut self) -> u64 {
        self.state = self.state.wrapping_add(0x9E37_79B9_7F4A_7C15);
        let mut mixed = self.state;
        mixed = (mixed ^ (mixed >> 30)).wrapping_mul(0xBF58_476D_1CE4_E5B9);
        mixed = (mixed ^ (mixed >> 27)).wrapping_mul(0x94D0_49BB_1331_11EB);
        mixed ^ (mixed >> 31)
    }

    /// A number below the count, which is above 0.
    pub fn below(&mut self, count: usize) -> usize {
        (self.bits() % count as u64) as usize
    }

    /// A number of the range, all alike; the range's start if it is empty.
    pub fn within(&mut self, range: RangeInclusive<i64>) -> i64 {
        let (low, high) = (*range.start(), *range.end());
        if low >= high {
            return low;
        }
        let width = i128::from(high) - i128::from(low) + 1;
        (i128::from(low) + i128::from(self.bits()) % width) as i64
    }

    /// A number of the range, often one of its ends or close to its start.
    pub fn skewed(&mut self, range: RangeInclusive<i64>) -> i64 {
        let (low, high) = (*range.start(), *range.end());
        match self.below(8) {
            0 => low,
            1 => high.max(low),
            2..=4 => {
                let near = self.bits() >> self.within(24..=63);
                (i128::from(low) + i128::from(near)).min(i128::from(high.max(low))) as i64
            }
            _ => self.within(range),
        }
    }

    /// True once in so many times.
    pub fn once_in(&mut self, times: usize) -> bool {
        self.below(times) == 0
    }

    pub fn flip(&mut self) -> bool {
        self.once_in(2)
    }

    pub fn pick<T: Copy>(&mut self, items: &[T]) -> Option<T> {
        match items.len() {
            0 => None,
            count => Some(items[self.below(count)]),
        }
    }

    pub fn shuffle<T>(&mut self, items: &mut [T]) {
        for last in (1..items.len()).rev() {
            items.swap(last, self.below(last + 1));
        }
    }

    /// A random part of the set's bits.
    pub fn part_of(&mut self, set: i64) -> i64 {
        match self.below(4) {
            0 => 0,
            1 => set,
            _ => set & self.bits() as i64,
        }
    }
}
