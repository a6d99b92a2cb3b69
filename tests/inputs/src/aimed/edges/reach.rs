//! Edges of 26 at what the machines reach from the in end's pressure of the same step. With p0 of the in end in its place all but `from_0_to_0`
//! are answered otherwise.

use super::machines::Compression;
use super::{Both, Branch};
use crate::model::{MACHINES, MOST, MOST_FLOW, MOST_PRESSURE, Pair, SINK};
use crate::rng::Rng;

const HOURS: i64 = 12;

impl Compression {
    /// These machines, all of which run, in place of the station's own.
    fn with_machines(mut self, machines: &[[i64; 2]]) -> Self {
        let station = self.branch.last_station();
        let pair = &mut self.branch.pair;
        pair.case.stations[station].machines = machines.to_vec();
        let all = (1 << machines.len()) - 1;
        let more = &mut pair.case.arcs[self.arc].more;
        (more[MACHINES], more[MOST]) = (all, machines.len() as i64);
        for step in &mut pair.plan.steps {
            step.arcs[self.arc].machines = all;
        }
        self.ratio = 1_000 + machines.iter().map(|[_, ratio]| ratio - 1_000).sum::<i64>();
        self
    }

    /// 1 mbar less at the in end, in the last step; its p0 is what is needed.
    fn with_in_too_low(self) -> Both {
        let steps = self.branch.steps();
        let (p_in, out) = (self.branch.pair.node(steps, self.in_end).p, self.out);
        let low = self.with_p0(p_in).with_pressures(steps, [p_in - 1, out]);
        low.refused(26, steps)
    }
}

pub fn edge_26_in_too_low(rng: &mut Rng, pair: &Pair) -> Both {
    Compression::new(rng, pair, false).with_in_too_low()
}

pub fn edge_26_in_too_low_backward(rng: &mut Rng, pair: &Pair) -> Both {
    Compression::new(rng, pair, true).with_in_too_low()
}

/// Twelve hours, in each of which the in end has so many thousands of mbar and the out end what the machines reach from it.
fn drifting(rng: &mut Rng, backward: bool, thousands: fn(i64) -> i64) -> Compression {
    let times: Vec<i64> = (1..=HOURS).map(|hour| 3_600 * hour).collect();
    let mut it = Compression::new(rng, &Branch::alone(&times, 0).pair, backward);
    let ratio = it.ratio;
    for hour in 1..=HOURS {
        let thousands = thousands(hour);
        it = it.with_pressures(hour as usize, [1_000 * thousands, ratio * thousands]);
    }
    it
}

/// The in end rises from 999 mbar: neither p0 nor the pressure of the step before is enough.
fn risen(rng: &mut Rng, backward: bool) -> Both {
    let risen = drifting(rng, backward, |hour| hour).with_p0(999);
    risen.branch.accepted()
}

pub fn edge_26_risen(rng: &mut Rng, _: &Pair) -> Both {
    risen(rng, false)
}

pub fn edge_26_risen_backward(rng: &mut Rng, _: &Pair) -> Both {
    risen(rng, true)
}

/// The in end falls from 13,000 mbar: p0 and the pressure of every step before the last would be enough.
fn fallen(rng: &mut Rng, backward: bool) -> Both {
    let fallen = drifting(rng, backward, |hour| HOURS + 1 - hour).with_p0(13_000);
    let ratio = fallen.ratio;
    let fallen = fallen.with_pressures(HOURS as usize, [1_000, ratio + 1]);
    fallen.refused(26, HOURS as usize)
}

pub fn edge_26_fallen(rng: &mut Rng, _: &Pair) -> Both {
    fallen(rng, false)
}

pub fn edge_26_fallen_backward(rng: &mut Rng, _: &Pair) -> Both {
    fallen(rng, true)
}

/// No machine runs: nothing flows and the ratio is 1,000, so that the pressures are equal, wherever p0 is.
fn without_machines(rng: &mut Rng, pair: &Pair, backward: bool) -> Compression {
    let mut it = Compression::new(rng, pair, backward).without_flow(SINK);
    for step in &mut it.branch.pair.plan.steps {
        step.arcs[it.arc].machines = 0;
    }
    let out = it.out;
    it.held([out, out]).with_p0(0)
}

pub fn edge_26_without_machines(rng: &mut Rng, pair: &Pair) -> Both {
    without_machines(rng, pair, false).branch.accepted()
}

pub fn edge_26_without_machines_backward(rng: &mut Rng, pair: &Pair) -> Both {
    without_machines(rng, pair, true).branch.accepted()
}

/// The in end is 1 mbar below the out end, in the last step.
fn without_machines_1_up(rng: &mut Rng, pair: &Pair, backward: bool) -> Both {
    let level = without_machines(rng, pair, backward).with_p0(MOST_PRESSURE);
    let (steps, out) = (level.branch.steps(), level.out);
    let up = level.with_pressures(steps, [out - 1, out]);
    up.refused(26, steps)
}

pub fn edge_26_without_machines_1_up(rng: &mut Rng, pair: &Pair) -> Both {
    without_machines_1_up(rng, pair, false)
}

pub fn edge_26_without_machines_1_up_backward(rng: &mut Rng, pair: &Pair) -> Both {
    without_machines_1_up(rng, pair, true)
}

/// 999 × 1,001 is 1 less than 1,000 × 1,000.
pub fn edge_26_a_thousandth_past_the_reach(rng: &mut Rng, pair: &Pair) -> Both {
    let backward = rng.flip();
    let weakest = Compression::new(rng, pair, backward).with_machines(&[[MOST_FLOW, 1_001]]);
    let past = weakest.held([999, 1_000]).with_p0(1_000);
    past.refused(26, 1)
}

/// Twelve machines with the highest R, whose ratio is 109,000, at these pressures.
fn strongest(rng: &mut Rng, pair: &Pair, pressures: [i64; 2]) -> Compression {
    let backward = rng.flip();
    let it = Compression::new(rng, pair, backward);
    it.with_machines(&[[MOST_FLOW, 10_000]; 12]).held(pressures)
}

/// From 0 mbar no machine reaches more than 0.
pub fn edge_26_from_0_to_0(rng: &mut Rng, pair: &Pair) -> Both {
    strongest(rng, pair, [0, 0]).branch.accepted()
}

pub fn edge_26_from_0_to_1(rng: &mut Rng, pair: &Pair) -> Both {
    let from_0 = strongest(rng, pair, [0, 1]).with_p0(MOST_PRESSURE);
    from_0.refused(26, 1)
}

/// The largest product that there is, 200,000 × 109,000.
pub fn edge_26_largest_product(rng: &mut Rng, pair: &Pair) -> Both {
    let largest = strongest(rng, pair, [MOST_PRESSURE; 2]).with_p0(0);
    largest.branch.accepted()
}

/// Of 198,000 × 109,000 the last 32 bits alone are 107,163,520, less than 1,000 × 200,000.
pub fn edge_26_product_past_32_bits(rng: &mut Rng, pair: &Pair) -> Both {
    let past = strongest(rng, pair, [198_000, MOST_PRESSURE]).with_p0(0);
    past.branch.accepted()
}

/// 1,835 × 109,000 is the first product past 1,000 × 200,000.
pub fn edge_26_from_1_835_to_200_000(rng: &mut Rng, pair: &Pair) -> Both {
    let highest = strongest(rng, pair, [1_835, MOST_PRESSURE]).with_p0(0);
    highest.branch.accepted()
}

pub fn edge_26_from_1_834_to_200_000(rng: &mut Rng, pair: &Pair) -> Both {
    let past = strongest(rng, pair, [1_834, MOST_PRESSURE]).with_p0(1_835);
    past.refused(26, 1)
}
