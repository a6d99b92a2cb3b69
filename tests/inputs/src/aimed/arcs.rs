//! Aimed changes at what an arc may do: 24 and 25.

use super::{Aimed, aimed, bit, find, holds};
use crate::model::{
    Arc, BOTH_WAYS, COMBINED, MACHINES, PIPE, Pair, REGULATOR, SHORTCUT, VALVE, is_backward,
};
use crate::rng::Rng;

/// A random step and a random arc for which the test holds.
pub(super) fn find_arc(
    rng: &mut Rng,
    pair: &Pair,
    test: impl Fn(usize, &Arc) -> bool,
) -> Option<(usize, usize)> {
    let arcs = &pair.case.arcs;
    find(rng, pair, arcs.len(), |step, arc| test(step, &arcs[arc]))
}

pub(super) fn find_row(
    rng: &mut Rng,
    pair: &Pair,
    test: impl Fn(usize, usize, &Arc) -> bool,
) -> Option<(usize, usize)> {
    let arcs = &pair.case.arcs;
    find(rng, pair, arcs.len(), |step, arc| {
        test(step, arc, &arcs[arc])
    })
}

pub fn aim_24_flow(rng: &mut Rng, pair: &Pair) -> Option<Aimed> {
    let mut pair = pair.clone();
    let (step, arc) = find_arc(rng, &pair, |_, _| true)?;
    let qmax = pair.case.arcs[arc].qmax;
    let below = if pair.case.arcs[arc].kind == PIPE {
        -qmax - 1
    } else {
        -1
    };
    let flow = rng.pick(&[below, qmax + 1, i64::MIN, i64::MAX])?;
    let row = pair.arc_mut(step, arc);
    if rng.flip() {
        row.a = flow;
    } else {
        row.b = flow;
    }
    aimed(&pair, 24, step, arc)
}

/// A regulator's b, or machines of an arc that has none.
pub fn aim_24_unused(rng: &mut Rng, pair: &Pair) -> Option<Aimed> {
    let mut pair = pair.clone();
    let (step, arc) = find_arc(rng, &pair, |_, it| !it.has_machines())?;
    if pair.case.arcs[arc].kind == REGULATOR && rng.flip() {
        pair.arc_mut(step, arc).b = 1;
        pair.case.arcs[arc].qmax = pair.case.arcs[arc].qmax.max(1);
    } else {
        pair.arc_mut(step, arc).machines = rng.pick(&[1, -1, i64::MIN, i64::MAX])?;
    }
    aimed(&pair, 24, step, arc)
}

pub fn aim_24_setting(rng: &mut Rng, pair: &Pair) -> Option<Aimed> {
    let mut pair = pair.clone();
    let (step, arc) = find_arc(rng, &pair, |_, _| true)?;
    let unknown = match pair.case.arcs[arc].kind {
        VALVE => 2,
        REGULATOR | PIPE => 1,
        COMBINED => 5,
        _ => 3,
    };
    pair.arc_mut(step, arc).setting = rng.pick(&[unknown, -1, i64::MIN, i64::MAX])?;
    aimed(&pair, 24, step, arc)
}

pub fn aim_24_one_way(rng: &mut Rng, pair: &Pair) -> Option<Aimed> {
    let mut pair = pair.clone();
    let one_way = |_, it: &Arc| it.kind >= SHORTCUT && it.more[BOTH_WAYS] == 0;
    let (step, arc) = find_arc(rng, &pair, one_way)?;
    let both = [2, 4];
    let known = if pair.case.arcs[arc].kind == COMBINED {
        2
    } else {
        1
    };
    pair.arc_mut(step, arc).setting = rng.pick(&both[..known])?;
    aimed(&pair, 24, step, arc)
}

/// A machine that isn't in the arc's set, or a number that is no set.
pub fn aim_24_machines(rng: &mut Rng, pair: &Pair) -> Option<Aimed> {
    let mut pair = pair.clone();
    let (step, arc) = find_arc(rng, &pair, |_, it| it.has_machines())?;
    let set = pair.case.arcs[arc].more[MACHINES];
    let strangers: Vec<usize> = (0..63).filter(|&machine| !holds(set, machine)).collect();
    let near: Vec<usize> = strangers.iter().copied().filter(|&it| it < 12).collect();
    let stranger = rng.pick(&near).or_else(|| rng.pick(&strangers))?;
    let row = pair.arc_mut(step, arc);
    row.machines = match rng.below(4) {
        0 => rng.pick(&[-1, i64::MIN, i64::MIN | set])?,
        1 => bit(rng.pick(&strangers)?),
        _ => row.machines | bit(stranger),
    };
    aimed(&pair, 24, step, arc)
}

pub fn aim_25_still(rng: &mut Rng, pair: &Pair) -> Option<Aimed> {
    let mut pair = pair.clone();
    let still = |step: usize, arc: usize, it: &Arc| {
        (it.kind == VALVE || it.kind >= SHORTCUT) && pair.arc(step, arc).setting == 0
    };
    let (step, arc) = find_row(rng, &pair, still)?;
    pair.case.arcs[arc].qmax = pair.case.arcs[arc].qmax.max(1);
    let flow = rng.skewed(1..=pair.case.arcs[arc].qmax);
    let row = pair.arc_mut(step, arc);
    match rng.below(3) {
        0 => row.a = flow,
        1 => row.b = flow,
        _ => (row.a, row.b) = (flow, flow),
    }
    aimed(&pair, 25, step, arc)
}

pub fn aim_25_against(rng: &mut Rng, pair: &Pair) -> Option<Aimed> {
    let mut pair = pair.clone();
    let active =
        |step: usize, arc: usize, it: &Arc| it.kind >= SHORTCUT && pair.arc(step, arc).setting > 0;
    let (step, arc) = find_row(rng, &pair, active)?;
    pair.case.arcs[arc].qmax = pair.case.arcs[arc].qmax.max(1);
    let flow = rng.skewed(1..=pair.case.arcs[arc].qmax);
    let row = pair.arc_mut(step, arc);
    if is_backward(row.setting) {
        row.a = flow;
    } else {
        row.b = flow;
    }
    aimed(&pair, 25, step, arc)
}
