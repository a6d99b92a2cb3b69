//! Edges of 28 and 29: at the last pipe, E or H away and the least past it.

use super::{Both, Branch};
use crate::model::{C, F, G, H, Pair, SINK, SOURCE};
use crate::model::{MOST_MASS_TOLERANCE, PIPE};
use crate::rng::Rng;

const P: i64 = 50_000;

/// A pipe without flow, at whose from end the pressure moves by 1 mbar in the last step: the left side of 28 is c.
fn moving(pair: &Pair, by: i64, past: i64) -> (Branch, usize) {
    let mut branch = Branch::beside(pair, 2, 1, 0);
    let (from, to) = (branch.inner(P), branch.inner(P));
    let arc = branch.arc(PIPE, from, to);
    let case = &mut branch.pair.case;
    case.mass_tolerance = case.mass_tolerance.clamp(1, MOST_MASS_TOLERANCE);
    case.pressure_tolerance = case.pressure_tolerance.max(1);
    case.arcs[arc].more[C] = case.mass_tolerance + past;
    let steps = branch.steps();
    branch.pair.node_mut(steps, from).p += by;
    (branch, arc)
}

pub fn edge_28_at_e(_: &mut Rng, pair: &Pair) -> Both {
    moving(pair, 1, 0).0.accepted()
}

pub fn edge_28_at_minus_e(_: &mut Rng, pair: &Pair) -> Both {
    moving(pair, -1, 0).0.accepted()
}

pub fn edge_28_past_e(_: &mut Rng, pair: &Pair) -> Both {
    let (branch, arc) = moving(pair, -1, 1);
    branch.refused(28, branch.steps(), arc)
}

pub fn edge_28_past_minus_e(_: &mut Rng, pair: &Pair) -> Both {
    let (branch, arc) = moving(pair, 1, 1);
    branch.refused(28, branch.steps(), arc)
}

/// A pipe with 1 g/s, whose from end is above its to end by H with this sign.
fn steep(pair: &Pair, sign: i64) -> (Branch, usize) {
    let mut branch = Branch::beside(pair, 2, 1, 0);
    let drop = sign * branch.pair.case.pressure_tolerance;
    let (from, to) = (branch.node(SOURCE, P + drop), branch.node(SINK, P));
    let arc = branch.arc(PIPE, from, to);
    for step in 1..=branch.steps() {
        let row = branch.pair.arc_mut(step, arc);
        (row.a, row.b) = (1, 1);
    }
    branch.supply(from, 1);
    branch.supply(to, -1);
    (branch, arc)
}

/// The left side of 29 is past 1,000,000 × H by one field of the pipe alone.
fn steeper(pair: &Pair, sign: i64, field: usize, value: i64) -> Both {
    let (mut branch, arc) = steep(pair, sign);
    branch.pair.case.arcs[arc].more[field] = value;
    branch.refused(29, 1, arc)
}

pub fn edge_29_at_h(_: &mut Rng, pair: &Pair) -> Both {
    steep(pair, -1).0.accepted()
}

pub fn edge_29_at_minus_h(_: &mut Rng, pair: &Pair) -> Both {
    steep(pair, 1).0.accepted()
}

pub fn edge_29_past_h_by_f(_: &mut Rng, pair: &Pair) -> Both {
    steeper(pair, -1, F, 1)
}

pub fn edge_29_past_h_by_g(_: &mut Rng, pair: &Pair) -> Both {
    steeper(pair, -1, G, 1)
}

pub fn edge_29_past_h_by_slope(_: &mut Rng, pair: &Pair) -> Both {
    steeper(pair, -1, H, 1)
}

pub fn edge_29_past_minus_h_by_slope(_: &mut Rng, pair: &Pair) -> Both {
    steeper(pair, 1, H, -1)
}
