//! Plans with each flow and pressure off by 1 or by nothing, and all else put right as docs/OPTIMISERS.md says.

use std::collections::BTreeMap;

use super::bounds::{Rounded, flows, is_short};
use crate::aimed::sides::net_32;
use crate::model::{ENTRY, EXIT, MOST_FLOW, PIPE, Pair, SOURCE};
use crate::reach::{named_machines, ratio};
use crate::rng::Rng;

/// The pair with errors in its plan, so that only 28, 29 and 33 can be the worse for it.
pub fn off_by_one(rng: &mut Rng, pair: &Pair, rounded: Rounded) -> Pair {
    let mut off = pair.clone();
    for step in 1..=pair.steps() {
        if rounded == Rounded::FlowsAndPressures {
            move_pressures(rng, &mut off, step);
        }
        for node in 0..pair.case.nodes.len() {
            move_boundary_flow(rng, &mut off, step, node);
        }
        for arc in 0..pair.case.arcs.len() {
            move_flows(rng, &mut off, step, arc);
        }
        for station in 0..pair.case.stations.len() {
            keep_fence(pair, &mut off, step, station);
        }
    }
    off
}

/// Equal pressures get equal errors and a lower one is never moved past a higher one, as one way of rounding does it.
/// An in pressure comes before its out pressure, which then goes no higher than the machines reach from it.
fn move_pressures(rng: &mut Rng, off: &mut Pair, step: usize) {
    let mut errors = BTreeMap::new();
    let mut below = (-1, 0);
    for (p, [least, most]) in room(off, step) {
        let would_cross = below == (p - 1, 1);
        let least = if would_cross { 0 } else { least };
        let most = most.min(left_at_26(off, step, p, &errors));
        let error = rng.within(least..=most);
        errors.insert(p, error);
        below = (p, error);
    }
    for node in 0..off.case.nodes.len() {
        let limits = off.case.nodes[node].clone();
        let row = off.node_mut(step, node);
        row.p += errors[&row.p];
        if limits.demands[step - 1] != 0 {
            row.u_plus = (limits.actlow - row.p).max(0);
            row.u_minus = (row.p - limits.acthigh).max(0);
        }
    }
}

/// The least and the most error of each pressure: bounds of 21 and 26 are whole, and an in pressure may fall by what was left at 26.
fn room(pair: &Pair, step: usize) -> BTreeMap<i64, [i64; 2]> {
    let mut room = BTreeMap::new();
    for (node, limits) in pair.case.nodes.iter().enumerate() {
        let p = pair.node(step, node).p;
        let [least, most]: &mut [i64; 2] = room.entry(p).or_insert([-1, 1]);
        *least = (*least).max(limits.low - p);
        *most = (*most).min(limits.high - p);
    }
    for (arc, [p_in, out]) in compressing(pair, step) {
        let bound = pair.out_bound(step, arc) - out;
        room.entry(out).and_modify(|it| it[1] = it[1].min(bound));
        if p_in < out && highest_out(pair, step, arc, p_in - 1) < out {
            room.entry(p_in).and_modify(|it| it[0] = 0);
        }
    }
    room
}

/// By how much this pressure may rise where it is an out pressure, with in pressures that are off by these errors. An in
/// pressure that is equal to it has the same error, which 26 allows.
fn left_at_26(pair: &Pair, step: usize, out: i64, errors: &BTreeMap<i64, i64>) -> i64 {
    let raised = |(_, [p_in, its_out]): &(usize, [i64; 2])| *p_in < out && *its_out == out;
    let left = |(arc, [p_in, _]): (usize, [i64; 2])| {
        highest_out(pair, step, arc, p_in + errors[&p_in]) - out
    };
    let arcs = compressing(pair, step).filter(raised);
    arcs.map(left).min().unwrap_or(1)
}

/// The arcs that compress in this step, with their in and out pressure.
fn compressing(pair: &Pair, step: usize) -> impl Iterator<Item = (usize, [i64; 2])> {
    (0..pair.case.arcs.len()).filter_map(move |arc| {
        let out = pair.compressed(step, arc)?;
        let (in_end, _) = pair.ends(step, arc);
        Some((arc, [pair.pressure(step, in_end), out]))
    })
}

/// The highest whole out pressure that the arc's machines reach from this in pressure.
fn highest_out(pair: &Pair, step: usize, arc: usize, p_in: i64) -> i64 {
    p_in * ratio(pair, step, arc) / 1_000
}

/// d where there is slack, and the slacks from it.
fn move_boundary_flow(rng: &mut Rng, off: &mut Pair, step: usize, node: usize) {
    if !is_short(off, step, node) {
        return;
    }
    let demand = off.case.nodes[node].demands[step - 1];
    let (least, most) = match off.case.nodes[node].kind {
        SOURCE => (0, MOST_FLOW),
        _ => (-MOST_FLOW, 0),
    };
    let row = off.node_mut(step, node);
    row.d = (row.d + rng.within(-1..=1)).clamp(least, most);
    row.s_plus = (demand - row.d).max(0);
    row.s_minus = (row.d - demand).max(0);
}

/// Within the bounds of 24 and 27, which are whole.
fn move_flows(rng: &mut Rng, off: &mut Pair, step: usize, index: usize) {
    let arc = &off.case.arcs[index];
    let qmax = arc.qmax;
    let least = if arc.kind == PIPE { -qmax } else { 0 };
    let mut most = qmax;
    if arc.compresses(off.arc(step, index).setting) {
        most = most.min(named_machines(off, step, index).map(|[flow, _]| flow).sum());
    }
    let [a, b] = flows(off, step, index);
    let row = off.arc_mut(step, index);
    if a {
        row.a = (row.a + rng.within(-1..=1)).clamp(least, most);
    }
    if b {
        row.b = (row.b + rng.within(-1..=1)).clamp(least, most);
    }
}

/// 32 has no tolerance: where the errors break it, the station's flows are as they were.
fn keep_fence(pair: &Pair, off: &mut Pair, step: usize, station: usize) {
    let direction = off.station(step, station).direction as usize;
    let sets = off.case.stations[station].directions[direction];
    let holds = |set: usize, node: usize| sets[set] >> node & 1 == 1;
    let kept = off.case.fence(station).into_iter().all(|node| {
        let net = net_32(off, step, node);
        (net >= 0 || !holds(ENTRY, node))
            && (net <= 0 || !holds(EXIT, node))
            && (net == 0 || holds(ENTRY, node) || holds(EXIT, node))
    });
    if kept {
        return;
    }
    for arc in off.case.station_arcs(station) {
        let before = pair.arc(step, arc);
        let row = off.arc_mut(step, arc);
        (row.a, row.b) = (before.a, before.b);
    }
}
