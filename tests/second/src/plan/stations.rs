//! The questions on stations: 30 to 32.

use super::Plan;
use crate::case::{self, holds};

pub(super) fn rule_30_choices(plan: &Plan, step: usize, index: usize) -> bool {
    let station = &plan.case.stations[index];
    let (Some(direction), Some(state)) = (plan.direction(step, index), plan.state(step, index))
    else {
        return false;
    };
    direction < station.directions.len()
        && state < station.states.len()
        && holds(station.states[state].directions, direction)
        && case::obeys(station, state, |arc| plan.active(step, arc))
}

pub(super) fn rule_31_machines_once(plan: &Plan, step: usize, index: usize) -> bool {
    let mut taken = 0;
    plan.case.stations[index].arcs.iter().all(|&arc| {
        let named = plan.arc(step, arc).machines;
        let free = named & taken == 0;
        taken |= named;
        free
    })
}

pub(super) fn rule_32_fence_flows(plan: &Plan, step: usize, index: usize) -> bool {
    let station = &plan.case.stations[index];
    let direction = plan
        .direction(step, index)
        .and_then(|chosen| station.directions.get(chosen));
    let Some(direction) = direction else {
        return false;
    };
    station.fence.iter().all(|&node| {
        let net = flow_into_station(plan, step, node);
        if holds(direction.entry, node) {
            net >= 0
        } else if holds(direction.exit, node) {
            net <= 0
        } else {
            net == 0
        }
    })
}

/// Net flow from the node into the artificial arcs that end there.
fn flow_into_station(plan: &Plan, step: usize, node: usize) -> i128 {
    let node = &plan.case.nodes[node];
    let artificial = |arc: &&usize| plan.case.arcs[**arc].artificial().is_some();
    let leaving = node.leaving.iter().filter(artificial);
    let entering = node.entering.iter().filter(artificial);
    let out: i128 = leaving.map(|&arc| plan.flow_at_from(step, arc)).sum();
    let into: i128 = entering.map(|&arc| plan.flow_at_to(step, arc)).sum();
    out - into
}
