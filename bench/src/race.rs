//! Calls, timed in turns.

use std::time::{Duration, Instant};

/// How many samples are taken, and how long each is at least.
#[derive(Clone, Copy)]
pub struct Timer {
    samples: usize,
    sample: Duration,
}

impl Timer {
    pub const LONG: Timer = Timer {
        samples: 9,
        sample: Duration::from_millis(30),
    };

    pub const SHORT: Timer = Timer {
        samples: 5,
        sample: Duration::from_millis(10),
    };

    /// The least seconds per call of each, over samples taken in turns.
    pub fn race<const CALLS: usize>(self, mut calls: [&mut dyn FnMut(); CALLS]) -> [f64; CALLS] {
        let counts = calls.each_mut().map(|call| self.calls_in_a_sample(call));
        let mut least = [f64::INFINITY; CALLS];
        for _ in 0..self.samples {
            for ((least, call), count) in least.iter_mut().zip(&mut calls).zip(counts) {
                *least = least.min(seconds_per_call(call, count));
            }
        }
        least
    }

    /// How many calls a sample has, found by doubling.
    fn calls_in_a_sample(self, call: &mut dyn FnMut()) -> u32 {
        let mut count = 1;
        while Duration::from_secs_f64(seconds_per_call(call, count) * f64::from(count))
            < self.sample
        {
            count *= 2;
        }
        count
    }
}

fn seconds_per_call(call: &mut dyn FnMut(), count: u32) -> f64 {
    let start = Instant::now();
    for _ in 0..count {
        call();
    }
    start.elapsed().as_secs_f64() / f64::from(count)
}
