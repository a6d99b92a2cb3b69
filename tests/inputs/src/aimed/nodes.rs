//! Aimed changes at nodes: 21 to 23, and 33.

use super::compressing::first_above_bound;
use super::sides::left_33;
use super::{Aimed, aimed, find, first_step};
use crate::model::{F, G, INNER, MOST_FLOW, NodeRow, PIPE, Pair, SOURCE, VALVE};
use crate::rng::Rng;

fn is_inner(pair: &Pair, node: usize) -> bool {
    pair.case.nodes[node].kind == INNER
}

pub fn aim_21_pressure(rng: &mut Rng, pair: &Pair) -> Option<Aimed> {
    let mut pair = pair.clone();
    let (step, node) = find(rng, &pair, pair.case.nodes.len(), |_, _| true)?;
    let limits = &pair.case.nodes[node];
    let outside = [limits.low - 1, limits.high + 1, i64::MIN, i64::MAX];
    pair.node_mut(step, node).p = rng.pick(&outside)?;
    aimed(&pair, 21, step, node)
}

pub fn aim_21_boundary(rng: &mut Rng, pair: &Pair) -> Option<Aimed> {
    let mut pair = pair.clone();
    let test = |_, node: usize| !is_inner(&pair, node);
    let (step, node) = find(rng, &pair, pair.case.nodes.len(), test)?;
    let limits = pair.case.nodes[node].clone();
    let sign = if limits.kind == SOURCE { 1 } else { -1 };
    let row = pair.node_mut(step, node);
    match rng.below(5) {
        0 => row.d = rng.pick(&[-sign, sign * (MOST_FLOW + 1), i64::MIN, i64::MAX])?,
        1 => row.s_plus = rng.pick(&[-1, MOST_FLOW + 1, i64::MIN, i64::MAX])?,
        2 => row.s_minus = rng.pick(&[-1, MOST_FLOW + 1, i64::MIN, i64::MAX])?,
        3 => row.u_plus = rng.pick(&[-1, limits.actlow - limits.low + 1, i64::MIN])?,
        _ => row.u_minus = rng.pick(&[-1, limits.high - limits.acthigh + 1, i64::MAX])?,
    }
    aimed(&pair, 21, step, node)
}

pub fn aim_21_inner(rng: &mut Rng, pair: &Pair) -> Option<Aimed> {
    let mut pair = pair.clone();
    let test = |_, node: usize| is_inner(&pair, node);
    let (step, node) = find(rng, &pair, pair.case.nodes.len(), test)?;
    let row = pair.node_mut(step, node);
    let numbers = [
        &mut row.d,
        &mut row.s_plus,
        &mut row.s_minus,
        &mut row.u_plus,
        &mut row.u_minus,
    ];
    let value = rng.pick(&[1, -1, i64::MIN, i64::MAX])?;
    if let Some(number) = numbers.into_iter().nth(rng.below(5)) {
        *number = value;
    }
    aimed(&pair, 21, step, node)
}

/// Do d and the demand slacks pass 21?
fn in_range(kind: i64, row: NodeRow) -> bool {
    let d = if kind == SOURCE { row.d } else { -row.d };
    [d, row.s_plus, row.s_minus]
        .iter()
        .all(|number| (0..=MOST_FLOW).contains(number))
}

pub fn aim_22_plan(rng: &mut Rng, pair: &Pair) -> Option<Aimed> {
    let mut pair = pair.clone();
    let test = |_, node: usize| !is_inner(&pair, node);
    let (step, node) = find(rng, &pair, pair.case.nodes.len(), test)?;
    let kind = pair.case.nodes[node].kind;
    let row = pair.node_mut(step, node);
    let off = rng.pick(&[1, -1, 1_000, -1_000])?;
    match rng.below(3) {
        0 => row.d += off,
        1 => row.s_plus += off,
        _ => row.s_minus += off,
    }
    in_range(kind, *row).then(|| aimed(&pair, 22, step, node))?
}

pub fn aim_22_demand(rng: &mut Rng, pair: &Pair) -> Option<Aimed> {
    let mut pair = pair.clone();
    let test = |_, node: usize| !is_inner(&pair, node);
    let (step, node) = find(rng, &pair, pair.case.nodes.len(), test)?;
    let limits = &mut pair.case.nodes[node];
    let sign = if limits.kind == SOURCE { 1 } else { -1 };
    let demand = &mut limits.demands[step - 1];
    *demand += rng.pick(&[1, -1])?;
    let in_range = (0..=MOST_FLOW).contains(&(sign * *demand));
    in_range.then(|| aimed(&pair, 22, step, node))?
}

pub fn aim_22_swapped(rng: &mut Rng, pair: &Pair) -> Option<Aimed> {
    let mut pair = pair.clone();
    let differ = |step: usize, node: usize| {
        let row = pair.node(step, node);
        row.s_plus != row.s_minus
    };
    let (step, node) = find(rng, &pair, pair.case.nodes.len(), differ)?;
    let row = pair.node_mut(step, node);
    (row.s_plus, row.s_minus) = (row.s_minus, row.s_plus);
    aimed(&pair, 22, step, node)
}

fn has_demand(pair: &Pair, step: usize, node: usize) -> bool {
    pair.case.nodes[node].demands[step - 1] != 0
}

/// One mbar less slack than the active range asks for.
pub fn aim_23_slack(rng: &mut Rng, pair: &Pair) -> Option<Aimed> {
    let mut pair = pair.clone();
    let test = |step: usize, node: usize| {
        let (limits, p) = (&pair.case.nodes[node], pair.pressure(step, node));
        has_demand(&pair, step, node) && (p < limits.actlow || p > limits.acthigh)
    };
    let (step, node) = find(rng, &pair, pair.case.nodes.len(), test)?;
    let (actlow, acthigh) = (pair.case.nodes[node].actlow, pair.case.nodes[node].acthigh);
    let row = pair.node_mut(step, node);
    if row.p < actlow {
        row.u_plus = actlow - row.p - 1;
    } else {
        row.u_minus = row.p - acthigh - 1;
    }
    aimed(&pair, 23, step, node)
}

/// Lifts the active range's low end above what a step reaches.
pub fn aim_23_actlow(rng: &mut Rng, pair: &Pair) -> Option<Aimed> {
    let mut pair = pair.clone();
    let reach = |pair: &Pair, step: usize, node: usize| {
        let row = pair.node(step, node);
        row.p + row.u_plus
    };
    let test = |step: usize, node: usize| {
        has_demand(&pair, step, node) && reach(&pair, step, node) < pair.case.nodes[node].acthigh
    };
    let (step, node) = find(rng, &pair, pair.case.nodes.len(), test)?;
    let actlow = reach(&pair, step, node) + 1;
    pair.case.nodes[node].actlow = actlow;
    let fails = |step| has_demand(&pair, step, node) && reach(&pair, step, node) < actlow;
    let first = first_step(&pair, fails)?;
    aimed(&pair, 23, first, node)
}

/// Lowers the active range's high end below what a step reaches; where an empty out bound falls with it in an earlier
/// step, 26 would be the first "no".
pub fn aim_23_acthigh(rng: &mut Rng, pair: &Pair) -> Option<Aimed> {
    let mut pair = pair.clone();
    let reach = |pair: &Pair, step: usize, node: usize| {
        let row = pair.node(step, node);
        row.p - row.u_minus
    };
    let test = |step: usize, node: usize| {
        has_demand(&pair, step, node) && reach(&pair, step, node) > pair.case.nodes[node].actlow
    };
    let (step, node) = find(rng, &pair, pair.case.nodes.len(), test)?;
    let acthigh = reach(&pair, step, node) - 1;
    pair.case.nodes[node].acthigh = acthigh;
    let fails = |step| has_demand(&pair, step, node) && reach(&pair, step, node) > acthigh;
    let first = first_step(&pair, fails)?;
    let earlier = first_above_bound(&pair).is_some_and(|(step, _)| step < first);
    (!earlier).then(|| aimed(&pair, 23, first, node))?
}

/// The least change of a flow, up or down, that takes a left side past E.
pub fn past(rng: &mut Rng, left: i64, span: i64, tolerance: i64) -> i64 {
    if rng.flip() {
        (tolerance - left).div_euclid(span) + 1
    } else {
        -((tolerance + left).div_euclid(span) + 1)
    }
}

/// Moves d and a demand slack together, so that only the balance is lost.
pub fn aim_33_boundary(rng: &mut Rng, pair: &Pair) -> Option<Aimed> {
    let mut pair = pair.clone();
    let test = |_, node: usize| !is_inner(&pair, node);
    let (step, node) = find(rng, &pair, pair.case.nodes.len(), test)?;
    let left = left_33(&pair, step, node);
    let more = -past(rng, left, pair.case.span(step), pair.case.mass_tolerance);
    let kind = pair.case.nodes[node].kind;
    let row = pair.node_mut(step, node);
    row.d += more;
    if more > 0 {
        row.s_minus += more;
    } else {
        row.s_plus -= more;
    }
    in_range(kind, *row).then(|| aimed(&pair, 33, step, node))?
}

/// More flow, at both ends alike, on an open valve or a pipe without friction, whose
/// first end in the order of nodes is inner.
pub fn aim_33_inner(rng: &mut Rng, pair: &Pair) -> Option<Aimed> {
    let mut pair = pair.clone();
    let test = |step: usize, arc: usize| {
        let its = &pair.case.arcs[arc];
        let smooth = its.kind == PIPE && its.more[F] == 0 && its.more[G] == 0;
        let open = its.kind == VALVE && pair.arc(step, arc).setting == 1;
        (smooth || open) && is_inner(&pair, its.from.min(its.to))
    };
    let (step, arc) = find(rng, &pair, pair.case.arcs.len(), test)?;
    let (from, to) = (pair.case.arcs[arc].from, pair.case.arcs[arc].to);
    let node = from.min(to);
    let left = left_33(&pair, step, node);
    let more = past(rng, left, pair.case.span(step), pair.case.mass_tolerance);
    let more = if node == from { more } else { -more };
    let is_pipe = pair.case.arcs[arc].kind == PIPE;
    let row = pair.arc_mut(step, arc);
    row.a += more;
    row.b += if is_pipe { more } else { 0 };
    let (a, b) = (row.a, row.b);
    let most = a.abs().max(b.abs());
    pair.case.arcs[arc].qmax = pair.case.arcs[arc].qmax.max(most);
    let passes_24 = most <= MOST_FLOW && (is_pipe || a >= 0);
    passes_24.then(|| aimed(&pair, 33, step, node))?
}
