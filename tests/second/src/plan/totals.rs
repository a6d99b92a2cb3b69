//! What a step adds to slacks and switching cost.

use super::Plan;
use crate::wide;

pub(super) fn pressure_slack(plan: &Plan, step: usize) -> i128 {
    (0..plan.case.nodes.len())
        .map(|node| plan.node(step, node))
        .map(|row| wide(row.u_plus) + wide(row.u_minus))
        .sum()
}

pub(super) fn demand_slack(plan: &Plan, step: usize) -> i128 {
    (0..plan.case.nodes.len())
        .map(|node| plan.node(step, node))
        .map(|row| wide(row.s_plus) + wide(row.s_minus))
        .sum()
}

/// The weights of newly chosen directions and states, and of arcs whose activity changed.
pub(super) fn switching_cost(plan: &Plan, step: usize) -> i128 {
    let stations = 0..plan.case.stations.len();
    let arcs = 0..plan.case.arcs.len();
    stations.map(|it| choice_cost(plan, step, it)).sum::<i128>()
        + arcs.map(|it| activity_cost(plan, step, it)).sum::<i128>()
}

fn choice_cost(plan: &Plan, step: usize, index: usize) -> i128 {
    let station = &plan.case.stations[index];
    let direction = plan.direction(step, index);
    let state = plan.state(step, index);
    let mut cost = 0;
    if direction != plan.direction(step - 1, index) {
        let row = direction.and_then(|chosen| station.directions.get(chosen));
        cost += row.map_or(0, |row| wide(row.weight));
    }
    if state != plan.state(step - 1, index) {
        let row = state.and_then(|chosen| station.states.get(chosen));
        cost += row.map_or(0, |row| wide(row.weight));
    }
    cost
}

fn activity_cost(plan: &Plan, step: usize, arc: usize) -> i128 {
    let Some(artificial) = plan.case.arcs[arc].artificial() else {
        return 0;
    };
    let changed = plan.active(step, arc) != plan.active(step - 1, arc);
    if changed { wide(artificial.weight) } else { 0 }
}
