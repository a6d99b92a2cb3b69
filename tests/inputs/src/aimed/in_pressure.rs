//! Aimed changes at the in end's pressure: 26, where the machines no longer reach the out pressure from it.

use super::arcs::find_row;
use super::compressing::first_arc;
use super::{Aimed, aimed};
use crate::model::{Arc, INNER, Pair, SHORTCUT, VALVE, is_backward};
use crate::reach::{overreach, overreach_from_p0, ratio};
use crate::rng::Rng;

/// Only on forward arcs, where the in end is from.
pub fn aim_26_in_pressure(rng: &mut Rng, pair: &Pair) -> Option<Aimed> {
    lower(rng, pair, |step, arc| {
        !is_backward(pair.arc(step, arc).setting)
    })
}

pub fn aim_26_in_pressure_backward(rng: &mut Rng, pair: &Pair) -> Option<Aimed> {
    lower(rng, pair, |step, arc| {
        is_backward(pair.arc(step, arc).setting)
    })
}

/// Step 1 is left as it was.
pub fn aim_26_in_pressure_later(rng: &mut Rng, pair: &Pair) -> Option<Aimed> {
    lower(rng, pair, |step, _| step > 1)
}

/// From p0 of the in end the machines would reach it: its pressure has fallen since.
pub fn aim_26_in_pressure_fallen(rng: &mut Rng, pair: &Pair) -> Option<Aimed> {
    lower(rng, pair, |step, arc| {
        overreach_from_p0(pair, step, arc).is_some_and(|over| over <= 0)
    })
}

/// Lowers the in end's pressure, in one step, to the highest from which the machines do not reach the out pressure.
fn lower(rng: &mut Rng, pair: &Pair, wanted: impl Fn(usize, usize) -> bool) -> Option<Aimed> {
    let mut pair = pair.clone();
    let test = |step: usize, arc: usize, _: &Arc| {
        let high = pair.compressed(step, arc).is_some_and(|out| out > 0);
        high && wanted(step, arc) && no_arc_before_asks(&pair, step, arc)
    };
    let (step, arc) = find_row(rng, &pair, test)?;
    let (in_end, _) = pair.ends(step, arc);
    let out = pair.compressed(step, arc)?;
    let too_low = (1_000 * out - 1) / ratio(&pair, step, arc);
    set_lower(&mut pair, step, in_end, too_low);
    let fails = |step, arc| overreach(&pair, step, arc).is_some_and(|over| over > 0);
    let found = first_arc(&pair, fails)?;
    // An arc before it that compresses from the same end may need more.
    (found == (step, arc)).then(|| aimed(&pair, 26, step, arc))?
}

/// Does no arc before this one ask for the pressure at its in end? One that compresses from there too may.
fn no_arc_before_asks(pair: &Pair, step: usize, arc: usize) -> bool {
    let (in_end, _) = pair.ends(step, arc);
    (0..arc).all(|other| {
        let its = &pair.case.arcs[other];
        let apart = its.from != in_end && its.to != in_end;
        let switched = its.kind == VALVE || its.kind >= SHORTCUT;
        let still = switched && pair.arc(step, other).setting == 0;
        let beside = pair.compressed(step, other).is_some();
        apart || still || (beside && pair.ends(step, other).0 == in_end)
    })
}

/// Gives the node a lower pressure in one step, with the bound and the slack that 21 and 23 then ask for.
fn set_lower(pair: &mut Pair, step: usize, node: usize, p: i64) {
    let limits = &mut pair.case.nodes[node];
    limits.low = limits.low.min(p);
    let (kind, actlow) = (limits.kind, limits.actlow);
    let row = pair.node_mut(step, node);
    row.p = p;
    if kind != INNER {
        row.u_plus = row.u_plus.max(actlow - p);
    }
}
