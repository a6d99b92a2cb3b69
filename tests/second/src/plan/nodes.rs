//! The questions on nodes: 21 to 23, and 33.

use super::{NodeRow, Plan};
use crate::case::{self, MOST_FLOW, NodeKind};
use crate::wide;

pub(super) fn rule_21_node_numbers(plan: &Plan, step: usize, index: usize) -> bool {
    let node = &plan.case.nodes[index];
    let row = plan.node(step, index);
    let pressure = (node.low..=node.high).contains(&row.p);
    let others = match node.kind {
        NodeKind::Inner => [row.d, row.s_plus, row.s_minus, row.u_plus, row.u_minus] == [0; 5],
        NodeKind::Source => (0..=MOST_FLOW).contains(&row.d) && slacks_in_range(node, &row),
        NodeKind::Sink => (-MOST_FLOW..=0).contains(&row.d) && slacks_in_range(node, &row),
    };
    pressure && others
}

fn slacks_in_range(node: &case::Node, row: &NodeRow) -> bool {
    (0..=MOST_FLOW).contains(&row.s_plus)
        && (0..=MOST_FLOW).contains(&row.s_minus)
        && (0..=node.actlow - node.low).contains(&row.u_plus)
        && (0..=node.high - node.acthigh).contains(&row.u_minus)
}

pub(super) fn rule_22_demand_is_met(plan: &Plan, step: usize, index: usize) -> bool {
    let node = &plan.case.nodes[index];
    let row = plan.node(step, index);
    let met = wide(row.d) + wide(row.s_plus) - wide(row.s_minus);
    node.kind == NodeKind::Inner || met == wide(node.demands[step - 1])
}

pub(super) fn rule_23_active_pressures(plan: &Plan, step: usize, index: usize) -> bool {
    let node = &plan.case.nodes[index];
    let row = plan.node(step, index);
    let high_enough = wide(row.p) + wide(row.u_plus) >= wide(node.actlow);
    let low_enough = wide(row.p) - wide(row.u_minus) <= wide(node.acthigh);
    node.demands[step - 1] == 0 || (high_enough && low_enough)
}

/// dt × |flow out - flow in - d|.
pub fn rule_33_left_side(plan: &Plan, step: usize, index: usize) -> i128 {
    let node = &plan.case.nodes[index];
    let leaving = node.leaving.iter();
    let entering = node.entering.iter();
    let out: i128 = leaving.map(|&arc| plan.flow_at_from(step, arc)).sum();
    let into: i128 = entering.map(|&arc| plan.flow_at_to(step, arc)).sum();
    let balance = out - into - plan.boundary_flow(step, index);
    wide(plan.case.spans[step - 1]) * balance.abs()
}
