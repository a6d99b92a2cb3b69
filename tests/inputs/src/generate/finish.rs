//! Limits and rows of the case, put around a finished plan.

use super::{Draft, Role, pipes, ratios, states};
use crate::model::{
    Arc, Case, F, G, INNER, MACHINES, MOST, MOST_FLOW, MOST_PRESSURE, Node, NodeRow, OUT_BOUND,
    Pair, Plan, SOURCE, Step,
};
use crate::rng::Rng;

pub fn pair(rng: &mut Rng, mut draft: Draft) -> Pair {
    finish_pipes(rng, &mut draft);
    ratios::lower(rng, &mut draft);
    for index in 0..draft.arcs.len() {
        let arc = with_limits(rng, &draft, index);
        draft.arcs[index].arc = arc;
    }
    let stations = (0..draft.stations.len())
        .map(|station| states::draw(rng, &mut draft, station))
        .collect();
    let mut plan = Plan {
        steps: (1..=draft.steps())
            .map(|step| bare_step(&draft, step))
            .collect(),
    };
    let nodes = (0..draft.kinds.len())
        .map(|node| finish_node(rng, &draft, &mut plan, node))
        .collect();
    let case = Case {
        mass_tolerance: draft.mass_tolerance,
        pressure_tolerance: draft.pressure_tolerance,
        times: times(&draft.spans),
        nodes,
        arcs: draft.arcs.into_iter().map(|it| it.arc).collect(),
        stations,
    };
    let mut pair = Pair { case, plan };
    for arc in 0..pair.case.arcs.len() {
        if pair.case.arcs[arc].has_machines() {
            pair.case.arcs[arc].more[OUT_BOUND] = out_bound(rng, &pair, arc);
        }
    }
    pair
}

fn times(spans: &[i64]) -> Vec<i64> {
    let mut time = 0;
    let add = |span: &i64| {
        time += span;
        time
    };
    spans.iter().map(add).collect()
}

fn finish_pipes(rng: &mut Rng, draft: &mut Draft) {
    for index in 0..draft.arcs.len() {
        if matches!(draft.arcs[index].role, Role::Tree { .. } | Role::Loop) {
            let [f, g] = pipes::add_friction(rng, draft, &draft.arcs[index]);
            draft.arcs[index].arc.more[F] = f;
            draft.arcs[index].arc.more[G] = g;
        }
    }
}

/// One of the least value, the most, or something between.
pub fn around(rng: &mut Rng, least: i64, most: i64) -> i64 {
    match rng.below(4) {
        0 | 1 => least,
        2 => most,
        _ => rng.within(least..=most),
    }
}

fn with_limits(rng: &mut Rng, draft: &Draft, index: usize) -> Arc {
    let it = &draft.arcs[index];
    let mut arc = it.arc.clone();
    let rows = &it.rows[1..];
    let flows = rows.iter().map(|row| row.a.abs().max(row.b.abs()));
    arc.qmax = around(rng, flows.max().unwrap_or(0), MOST_FLOW);
    if arc.has_machines() {
        let used = rows.iter().fold(0, |set, row| set | row.machines);
        arc.more[MACHINES] = used | rng.part_of(arc.more[MACHINES]);
        let counts = rows.iter().map(|row| i64::from(row.machines.count_ones()));
        arc.more[MOST] = around(rng, counts.max().unwrap_or(0), 12);
    }
    arc
}

/// Draws an out bound, whose field is still 0: it may stay 0 where no out pressure is above acthigh of its out end.
fn out_bound(rng: &mut Rng, pair: &Pair, arc: usize) -> i64 {
    let reached = |step: usize| Some((pair.compressed(step, arc)?, pair.out_bound(step, arc)));
    let reached: Vec<(i64, i64)> = (1..=pair.steps()).filter_map(reached).collect();
    let highest = reached.iter().map(|&(out, _)| out).max().unwrap_or(0);
    if reached.iter().all(|(out, acthigh)| out <= acthigh) && rng.flip() {
        return 0;
    }
    around(rng, highest, MOST_PRESSURE)
}

/// The step with flows and pressures, still without slacks.
fn bare_step(draft: &Draft, step: usize) -> Step {
    let node = |node: usize| NodeRow {
        p: draft.p[step][node],
        d: draft.d[step][node],
        ..NodeRow::default()
    };
    Step {
        nodes: (0..draft.kinds.len()).map(node).collect(),
        arcs: draft.arcs.iter().map(|it| it.rows[step]).collect(),
        stations: draft.stations.iter().map(|it| it.rows[step]).collect(),
    }
}

/// Puts limits around a node's pressures, and slacks and demands around its flows.
fn finish_node(rng: &mut Rng, draft: &Draft, plan: &mut Plan, index: usize) -> Node {
    let pressures = || (1..=draft.steps()).map(|step| draft.p[step][index]);
    let (least, most) = (
        pressures().min().unwrap_or(0),
        pressures().max().unwrap_or(0),
    );
    let low = least - around(rng, 0, least);
    let high = around(rng, most, MOST_PRESSURE);
    let [one, other] = [rng.skewed(low..=high), rng.skewed(low..=high)];
    let (actlow, acthigh) = match rng.below(3) {
        0 => (least, most),
        1 => (one.min(other), one.max(other)),
        _ => (one.min(least), other.max(most)),
    };
    let mut node = Node {
        kind: draft.kinds[index],
        p0: draft.p[0][index],
        low,
        high,
        actlow,
        acthigh,
        demands: Vec::new(),
    };
    for step in &mut plan.steps {
        let row = &mut step.nodes[index];
        let demand = match node.kind {
            INNER => 0,
            _ => add_slacks(rng, &node, row),
        };
        node.demands.push(demand);
    }
    node
}

/// Gives a boundary node's row its slacks, and the demand that they meet.
fn add_slacks(rng: &mut Rng, node: &Node, row: &mut NodeRow) -> i64 {
    if rng.flip() {
        // What one slack may be, the sign of the demand allows.
        let size = row.d.abs();
        let away = rng.skewed(0..=MOST_FLOW - size);
        let back = rng.skewed(0..=(size + away).min(MOST_FLOW));
        (row.s_plus, row.s_minus) = match node.kind {
            SOURCE => (away, back),
            _ => (back, away),
        };
    }
    let demand = row.d + row.s_plus - row.s_minus;
    let free = demand == 0 && rng.flip();
    let lift = (node.actlow - row.p).max(0);
    let press = (row.p - node.acthigh).max(0);
    let (lift, press) = if free { (0, 0) } else { (lift, press) };
    row.u_plus = some_more(rng, lift, node.actlow - node.low);
    row.u_minus = some_more(rng, press, node.high - node.acthigh);
    demand
}

/// Mostly just what is needed.
fn some_more(rng: &mut Rng, needed: i64, most: i64) -> i64 {
    match rng.below(4) {
        0 => rng.skewed(needed..=most),
        _ => needed,
    }
}
