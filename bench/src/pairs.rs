//! Accepted cases and plans, and the two judges on them.

use std::hint::black_box;

use gasplan::calls as proved;
use harness::calls as plain;
use inputs::Rng;
use inputs::generate::{Size, of_size};

use crate::alike::race;
use crate::race::Timer;

/// About what the program's lists hold: 1,500 and 4,000 numbers.
pub const PANEL: Size = Size {
    nodes: 12,
    arcs: 20,
    stations: 2,
    steps: 24,
};

/// An accepted pair as lists.
pub struct Lists {
    pub size: Size,
    pub case: Vec<i64>,
    pub plan: Vec<i64>,
}

impl Lists {
    pub fn new(size: Size) -> Lists {
        let pair = of_size(&mut Rng::new(1), size);
        Lists {
            size,
            case: pair.case.list(),
            plan: pair.plan.list(),
        }
    }

    /// Seconds for the case, proved and plain.
    pub fn race_case(&self, timer: Timer) -> [f64; 2] {
        let proved = |out: &mut [i64]| proved::case(black_box(&self.case), out);
        let plain = |out: &mut [i64]| plain::judge_case(black_box(&self.case), out);
        race(timer, [&proved, &plain])
    }

    /// Seconds for case and plan, proved and plain.
    pub fn race_plan(&self, timer: Timer) -> [f64; 2] {
        let [case, plan] = [&self.case, &self.plan];
        let proved = |out: &mut [i64]| proved::judge(black_box(case), black_box(plan), out);
        let plain = |out: &mut [i64]| plain::judge_plan(black_box(case), black_box(plan), out);
        race(timer, [&proved, &plain])
    }

    /// Seconds for a ledger of every second node over all steps, proved and plain.
    pub fn race_ledger(&self, timer: Timer) -> [f64; 2] {
        let set = (0..self.size.nodes).step_by(2).map(|i| 1 << i).sum();
        let steps = self.size.steps as i64;
        let [case, plan] = [&self.case, &self.plan];
        let proved = |out: &mut [i64]| proved::ledger(black_box(case), plan, set, 0, steps, out);
        let plain = |out: &mut [i64]| plain::draw_ledger(black_box(case), plan, set, 0, steps, out);
        race(timer, [&proved, &plain])
    }
}
