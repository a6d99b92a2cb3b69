//! Edges of 26 at an empty out bound: 0 stands for acthigh of the out end, whatever its kind, its demand and its slack.
//!
//! `high` of every node is 200,000.

use super::machines::{Compression, regulating};
use super::{Both, Branch};
use crate::model::{INNER, MOST_PRESSURE, Pair, SINK};
use crate::rng::Rng;

impl Compression {
    /// acthigh of the out end is so much below the out pressure, and u- is what 23 asks for. Where both pressures differ,
    /// acthigh of the in end is on the other side of the out pressure, so that it cannot be taken for the one that is meant.
    fn above_acthigh(mut self, more: i64) -> Self {
        let acthigh = self.out - more;
        let pair = &mut self.branch.pair;
        let p_in = pair.node(1, self.in_end).p;
        pair.case.nodes[self.in_end].acthigh = if more > 0 { MOST_PRESSURE } else { p_in };
        pair.case.nodes[self.out_end].acthigh = acthigh;
        for step in 1..=pair.steps() {
            let demand = pair.case.nodes[self.out_end].demands[step - 1];
            let row = pair.node_mut(step, self.out_end);
            row.u_minus = if demand == 0 {
                0
            } else {
                (row.p - acthigh).max(0)
            };
        }
        self
    }

    /// Nothing flows; the out end is of this kind and has no demand, so that 23 asks nothing.
    pub fn without_flow(mut self, kind: i64) -> Self {
        self.branch.pair.case.nodes[self.out_end].kind = kind;
        self.branch.supply(self.in_end, 0);
        self.branch.supply(self.out_end, 0);
        for step in &mut self.branch.pair.plan.steps {
            let row = &mut step.arcs[self.arc];
            (row.a, row.b) = (0, 0);
        }
        self
    }
}

fn still(rng: &mut Rng, pair: &Pair, kind: i64) -> Compression {
    let backward = rng.flip();
    Compression::new(rng, pair, backward).without_flow(kind)
}

pub fn edge_26_at_an_empty_bound(rng: &mut Rng, pair: &Pair) -> Both {
    let at = Compression::new(rng, pair, false);
    at.above_acthigh(0).branch.accepted()
}

pub fn edge_26_at_an_empty_bound_backward(rng: &mut Rng, pair: &Pair) -> Both {
    let at = Compression::new(rng, pair, true);
    at.above_acthigh(0).branch.accepted()
}

/// The slack with which 23 is passed does not count here.
pub fn edge_26_past_an_empty_bound(rng: &mut Rng, pair: &Pair) -> Both {
    let past = Compression::new(rng, pair, false);
    past.above_acthigh(1).refused(26, 1)
}

pub fn edge_26_past_an_empty_bound_backward(rng: &mut Rng, pair: &Pair) -> Both {
    let past = Compression::new(rng, pair, true);
    past.above_acthigh(1).refused(26, 1)
}

pub fn edge_26_inner_past_an_empty_bound(rng: &mut Rng, pair: &Pair) -> Both {
    still(rng, pair, INNER).above_acthigh(1).refused(26, 1)
}

pub fn edge_26_no_demand_past_an_empty_bound(rng: &mut Rng, pair: &Pair) -> Both {
    still(rng, pair, SINK).above_acthigh(1).refused(26, 1)
}

/// At it in the first two of three steps.
pub fn edge_26_past_an_empty_bound_in_the_last_step(rng: &mut Rng, _: &Pair) -> Both {
    let three_steps = Branch::alone(&[60, 120, 180], 0).pair;
    let mut past = Compression::new(rng, &three_steps, false);
    for step in 1..=2 {
        past.branch.pair.node_mut(step, past.out_end).p -= 1;
    }
    past.above_acthigh(1).refused(26, 3)
}

/// To this pressure, from the lowest from which the machines reach it.
fn up_to(rng: &mut Rng, pair: &Pair, out: i64) -> Compression {
    let backward = rng.flip();
    let mut it = Compression::new(rng, pair, backward);
    it.out = out;
    let p_in = (1_000 * out + it.ratio - 1) / it.ratio;
    it.held([p_in, out])
}

pub fn edge_26_empty_bound_of_0(rng: &mut Rng, pair: &Pair) -> Both {
    up_to(rng, pair, 0).above_acthigh(0).branch.accepted()
}

pub fn edge_26_past_an_empty_bound_of_0(rng: &mut Rng, pair: &Pair) -> Both {
    up_to(rng, pair, 1).above_acthigh(1).refused(26, 1)
}

/// With acthigh 200,000 an empty bound lets every pressure through that a node may have.
pub fn edge_26_empty_bound_of_200_000(rng: &mut Rng, pair: &Pair) -> Both {
    let highest = up_to(rng, pair, MOST_PRESSURE);
    highest.above_acthigh(0).branch.accepted()
}

/// A bound that is given counts alone, above acthigh and below it.
pub fn edge_26_given_bound_of_1(rng: &mut Rng, pair: &Pair) -> Both {
    let at = up_to(rng, pair, 1).with_out_bound(1);
    at.above_acthigh(1).branch.accepted()
}

pub fn edge_26_past_a_given_bound_of_1(rng: &mut Rng, pair: &Pair) -> Both {
    let past = up_to(rng, pair, 2).with_out_bound(1);
    past.above_acthigh(0).refused(26, 1)
}

pub fn edge_26_given_bound_above_acthigh(rng: &mut Rng, pair: &Pair) -> Both {
    let at = still(rng, pair, INNER);
    let out = at.out;
    let at = at.with_out_bound(out);
    at.above_acthigh(1).branch.accepted()
}

pub fn edge_26_given_bound_of_200_000(rng: &mut Rng, pair: &Pair) -> Both {
    let widest = still(rng, pair, SINK).with_out_bound(MOST_PRESSURE);
    widest.above_acthigh(1).branch.accepted()
}

/// The out bound is for compressing alone.
pub fn edge_26_regulating_above_acthigh(rng: &mut Rng, pair: &Pair) -> Both {
    regulating(rng, pair).above_acthigh(1).branch.accepted()
}
