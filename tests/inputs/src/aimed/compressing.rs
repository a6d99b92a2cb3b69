//! Aimed changes at pressures and machines: 26 and 27.

use super::arcs::{find_arc, find_row};
use super::{Aimed, aimed, first_step};
use crate::model::{
    Arc, BOTH_WAYS, COMBINED, INNER, MACHINES, MOST, MOST_FLOW, OUT_BOUND, Pair, REGULATING,
    REGULATOR, SHORTCUT, VALVE, is_backward,
};
use crate::reach::{named_machines, take_machines};
use crate::rng::Rng;

/// Gives the arc a setting and lets its flow go that way, so that 25 is passed.
fn set(pair: &mut Pair, step: usize, arc: usize, setting: i64) {
    let row = pair.arc_mut(step, arc);
    let flow = row.a.max(row.b);
    (row.a, row.b) = if is_backward(setting) {
        (0, flow)
    } else {
        (flow, 0)
    };
    row.setting = setting;
    row.machines = 0;
}

pub fn aim_26_level(rng: &mut Rng, pair: &Pair) -> Option<Aimed> {
    let mut pair = pair.clone();
    let unequal = |step: usize, it: &Arc| {
        let differ = pair.pressure(step, it.from) != pair.pressure(step, it.to);
        differ && (it.kind == VALVE || it.kind == SHORTCUT)
    };
    let (step, arc) = find_arc(rng, &pair, unequal)?;
    let known = if pair.case.arcs[arc].kind == VALVE {
        1
    } else {
        2
    };
    set(&mut pair, step, arc, rng.within(1..=known));
    aimed(&pair, 26, step, arc)
}

pub fn aim_26_regulator(rng: &mut Rng, pair: &Pair) -> Option<Aimed> {
    let mut pair = pair.clone();
    let falls = |step: usize, it: &Arc| {
        let falls = pair.pressure(1, it.from) > pair.pressure(1, it.to);
        step == 1 && falls && it.kind == REGULATOR
    };
    let (step, arc) = find_arc(rng, &pair, falls)?;
    let ends = &mut pair.case.arcs[arc];
    (ends.from, ends.to) = (ends.to, ends.from);
    aimed(&pair, 26, step, arc)
}

/// Settings of the arc whose in pressure stands to the out pressure as the test asks.
fn settings(
    pair: &Pair,
    step: usize,
    arc: usize,
    compressing: bool,
    test: impl Fn(i64, i64) -> bool,
) -> Vec<i64> {
    let it = &pair.case.arcs[arc];
    let last = if it.kind == COMBINED { 4 } else { 2 };
    let fits = |setting: &i64| {
        let (in_end, out_end) = it.ends(*setting);
        let one_way = it.more[BOTH_WAYS] == 0;
        let allowed = !(one_way && is_backward(*setting));
        let asked = test(pair.pressure(step, in_end), pair.pressure(step, out_end));
        allowed && asked && it.compresses(*setting) == compressing
    };
    (1..=last).filter(fits).collect()
}

pub fn aim_26_regulating(rng: &mut Rng, pair: &Pair) -> Option<Aimed> {
    let mut pair = pair.clone();
    let uphill = |pair: &Pair, step, arc| settings(pair, step, arc, false, |p, out| p < out);
    let test = |step: usize, arc: usize, it: &Arc| {
        (it.kind == REGULATING || it.kind == COMBINED) && !uphill(&pair, step, arc).is_empty()
    };
    let (step, arc) = find_row(rng, &pair, test)?;
    let setting = rng.pick(&uphill(&pair, step, arc))?;
    set(&mut pair, step, arc, setting);
    aimed(&pair, 26, step, arc)
}

pub fn aim_26_compressing(rng: &mut Rng, pair: &Pair) -> Option<Aimed> {
    let mut pair = pair.clone();
    let downhill = |pair: &Pair, step, arc| settings(pair, step, arc, true, |p, out| p > out);
    let test = |step: usize, arc: usize, it: &Arc| {
        it.has_machines() && !downhill(&pair, step, arc).is_empty()
    };
    let (step, arc) = find_row(rng, &pair, test)?;
    let setting = rng.pick(&downhill(&pair, step, arc))?;
    set(&mut pair, step, arc, setting);
    if rng.flip() {
        pair.arc_mut(step, arc).machines = pair.case.arcs[arc].more[MACHINES];
    }
    aimed(&pair, 26, step, arc)
}

pub fn aim_26_out_bound(rng: &mut Rng, pair: &Pair) -> Option<Aimed> {
    out_bound(rng, pair, |_| true)
}

/// Only on backward arcs, where the out end is from.
pub fn aim_26_out_bound_backward(rng: &mut Rng, pair: &Pair) -> Option<Aimed> {
    out_bound(rng, pair, is_backward)
}

/// Lowers an out bound to one mbar below what a step reaches; 0 would leave it to acthigh.
fn out_bound(rng: &mut Rng, pair: &Pair, wanted: fn(i64) -> bool) -> Option<Aimed> {
    let mut pair = pair.clone();
    let test = |step: usize, arc: usize, _: &Arc| {
        let high = pair.compressed(step, arc).is_some_and(|out| out > 1);
        high && wanted(pair.arc(step, arc).setting)
    };
    let (step, arc) = find_row(rng, &pair, test)?;
    pair.case.arcs[arc].more[OUT_BOUND] = pair.compressed(step, arc)? - 1;
    let (step, arc) = first_above_bound(&pair)?;
    aimed(&pair, 26, step, arc)
}

/// Only on forward arcs, where the out end is to.
pub fn aim_26_empty_bound(rng: &mut Rng, pair: &Pair) -> Option<Aimed> {
    empty_bound(rng, pair, |setting| !is_backward(setting))
}

pub fn aim_26_empty_bound_backward(rng: &mut Rng, pair: &Pair) -> Option<Aimed> {
    empty_bound(rng, pair, is_backward)
}

/// Empties an out bound and puts acthigh of its out end one mbar below what a step reaches.
fn empty_bound(rng: &mut Rng, pair: &Pair, wanted: fn(i64) -> bool) -> Option<Aimed> {
    let mut pair = pair.clone();
    let test = |step: usize, arc: usize, _: &Arc| {
        let low = pair.case.nodes[pair.ends(step, arc).1].low;
        let high = pair.compressed(step, arc).is_some_and(|out| out > low);
        high && wanted(pair.arc(step, arc).setting)
    };
    let (step, arc) = find_row(rng, &pair, test)?;
    let (_, out_end) = pair.ends(step, arc);
    let acthigh = pair.compressed(step, arc)? - 1;
    pair.case.arcs[arc].more[OUT_BOUND] = 0;
    set_acthigh(&mut pair, out_end, acthigh);
    let (step, arc) = first_above_bound(&pair)?;
    aimed(&pair, 26, step, arc)
}

/// Gives the node another acthigh, and a boundary node the slacks that 23 then asks for.
fn set_acthigh(pair: &mut Pair, node: usize, acthigh: i64) {
    let limits = &mut pair.case.nodes[node];
    let actlow = limits.actlow.min(acthigh);
    (limits.actlow, limits.acthigh) = (actlow, acthigh);
    if limits.kind == INNER {
        return;
    }
    for step in &mut pair.plan.steps {
        let row = &mut step.nodes[node];
        row.u_plus = (actlow - row.p).max(0);
        row.u_minus = (row.p - acthigh).max(0);
    }
}

/// The first step and arc whose out pressure is above the out bound.
pub(super) fn first_above_bound(pair: &Pair) -> Option<(usize, usize)> {
    first_arc(pair, |step, arc| {
        let out = pair.compressed(step, arc);
        out.is_some_and(|out| out > pair.out_bound(step, arc))
    })
}

/// The first step in which the test holds for an arc, and the first such arc.
pub(super) fn first_arc(
    pair: &Pair,
    test: impl Fn(usize, usize) -> bool,
) -> Option<(usize, usize)> {
    let rows = |step| (0..pair.case.arcs.len()).map(move |arc| (step, arc));
    let mut rows = (1..=pair.steps()).flat_map(rows);
    rows.find(|&(step, arc)| test(step, arc))
}

/// Takes machines away until the ratio no longer reaches the out pressure.
pub fn aim_26_ratio(rng: &mut Rng, pair: &Pair) -> Option<Aimed> {
    let mut pair = pair.clone();
    let test = |step: usize, arc: usize, _: &Arc| {
        pair.compressed(step, arc).is_some() && pair.arc(step, arc).machines != 0
    };
    let (step, arc) = find_row(rng, &pair, test)?;
    take_machines(&mut pair, step, arc)?;
    aimed(&pair, 26, step, arc)
}

pub fn aim_27_idle(rng: &mut Rng, pair: &Pair) -> Option<Aimed> {
    let mut pair = pair.clone();
    let idle = |step: usize, arc: usize, it: &Arc| {
        let compresses = it.compresses(pair.arc(step, arc).setting);
        it.has_machines() && it.more[MACHINES] != 0 && !compresses
    };
    let (step, arc) = find_row(rng, &pair, idle)?;
    let set = pair.case.arcs[arc].more[MACHINES];
    let lowest = set & -set;
    pair.arc_mut(step, arc).machines = lowest | rng.part_of(set);
    aimed(&pair, 27, step, arc)
}

pub fn aim_27_most(rng: &mut Rng, pair: &Pair) -> Option<Aimed> {
    let mut pair = pair.clone();
    let count = |pair: &Pair, step: usize, arc: usize| {
        let compresses = pair.compressed(step, arc).is_some();
        let count = pair.arc(step, arc).machines.count_ones();
        if compresses { i64::from(count) } else { 0 }
    };
    let test = |step: usize, arc: usize, _: &Arc| count(&pair, step, arc) > 0;
    let (step, arc) = find_row(rng, &pair, test)?;
    let most = count(&pair, step, arc) - 1;
    pair.case.arcs[arc].more[MOST] = most;
    let first = first_step(&pair, |step| count(&pair, step, arc) > most)?;
    aimed(&pair, 27, first, arc)
}

pub fn aim_27_flow(rng: &mut Rng, pair: &Pair) -> Option<Aimed> {
    let mut pair = pair.clone();
    let test = |step: usize, arc: usize, _: &Arc| pair.compressed(step, arc).is_some();
    let (step, arc) = find_row(rng, &pair, test)?;
    let capacity: i64 = named_machines(&pair, step, arc).map(|[flow, _]| flow).sum();
    let flow = capacity + 1;
    let row = pair.arc_mut(step, arc);
    if is_backward(row.setting) {
        row.b = flow;
    } else {
        row.a = flow;
    }
    pair.case.arcs[arc].qmax = pair.case.arcs[arc].qmax.max(flow);
    (flow <= MOST_FLOW).then(|| aimed(&pair, 27, step, arc))?
}
