//! The questions 21, 22, 23 and 33 of a node in a step.

use gasplan_text::model::{Case, INNER, Node, NodeRow, Plan, SOURCE};

use crate::amount::{FLOW, MASS, MBAR};
use crate::bound::Bound;
use crate::check::{Check, at_least, at_most, same, term, wide, within, zero};

pub const MOST_FLOW: i64 = 10_000_000;

pub fn rule_21(plan: &Plan, step: usize, index: usize) -> Vec<Check> {
    let node = &plan.case.nodes[index];
    let row = plan.node(step, index);
    let p = within("p", row.p, node.low, node.high, Some(MBAR));
    let mut checks = vec![p.margin(Bound::Pressure)];
    match node.kind {
        INNER => checks.extend(inner_numbers(&row)),
        _ => checks.extend(boundary_numbers(node, &row)),
    }
    checks
}

fn inner_numbers(row: &NodeRow) -> [Check; 5] {
    let why = "an inner node has no boundary flow and no slack";
    [
        zero("d", row.d, why),
        zero("s+", row.s_plus, why),
        zero("s-", row.s_minus, why),
        zero("u+", row.u_plus, why),
        zero("u-", row.u_minus, why),
    ]
}

fn boundary_numbers(node: &Node, row: &NodeRow) -> [Check; 5] {
    let (least, most) = match node.kind == SOURCE {
        true => (0, MOST_FLOW),
        false => (-MOST_FLOW, 0),
    };
    let flow = |name, number: i64, least, most| {
        let left = MOST_FLOW.saturating_sub(number.saturating_abs());
        within(name, number, least, most, Some(FLOW)).margin_above(Bound::BoundaryFlow, left)
    };
    let slack = |name, number: i64, most: i64, bound| {
        let within = within(name, number, 0, most, Some(MBAR));
        match most {
            // Nothing to choose.
            0 => within,
            _ => within.margin_above(bound, most.saturating_sub(number)),
        }
    };
    let (below, above) = (node.actlow - node.low, node.high - node.acthigh);
    [
        flow("d", row.d, least, most),
        flow("s+", row.s_plus, 0, MOST_FLOW),
        flow("s-", row.s_minus, 0, MOST_FLOW),
        slack("u+", row.u_plus, below, Bound::SlackBelow),
        slack("u-", row.u_minus, above, Bound::SlackAbove),
    ]
}

/// Asked of boundary nodes.
pub fn rule_22(plan: &Plan, step: usize, index: usize) -> Vec<Check> {
    let node = &plan.case.nodes[index];
    if node.kind == INNER {
        return Vec::new();
    }
    let demand = node.demand(step);
    let row = plan.node(step, index);
    let met = wide(row.d) + wide(row.s_plus) - wide(row.s_minus);
    let side = format!(
        "d + s+ - s- = {} + {} - {} = {met}",
        row.d,
        term(row.s_plus),
        term(row.s_minus)
    );
    let wanted = format!("the demand {demand}");
    vec![same((&side, met), (&wanted, wide(demand)), FLOW)]
}

/// Asked where there is a demand.
pub fn rule_23(plan: &Plan, step: usize, index: usize) -> Vec<Check> {
    let node = &plan.case.nodes[index];
    let (row, demand) = (plan.node(step, index), node.demand(step));
    if demand == 0 {
        return Vec::new();
    }
    let why = format!("the demand is {demand}");
    let raised = wide(row.p) + wide(row.u_plus);
    let lowered = wide(row.p) - wide(row.u_minus);
    let low = (
        format!("p + u+ = {} + {} = {raised}", row.p, term(row.u_plus)),
        format!("actlow {}", node.actlow),
    );
    let high = (
        format!("p - u- = {} - {} = {lowered}", row.p, term(row.u_minus)),
        format!("acthigh {}", node.acthigh),
    );
    vec![
        at_least((&low.0, raised), (&low.1, wide(node.actlow)), MBAR)
            .because(&why)
            .margin(Bound::ActiveLow),
        at_most((&high.0, lowered), (&high.1, wide(node.acthigh)), MBAR)
            .because(&why)
            .margin(Bound::ActiveHigh),
    ]
}

/// Flow along the arc at its from and at its to end.
pub fn flows(plan: &Plan, step: usize, arc: usize) -> (i128, i128) {
    let row = plan.arc(step, arc);
    let (a, b) = (wide(row.a), wide(row.b));
    match plan.case.arcs[arc].is_pipe() {
        true => (a, b),
        false => (a - b, a - b),
    }
}

/// Flow out of the node and flow into it, over the arcs that are counted.
pub fn out_and_in(
    plan: &Plan,
    step: usize,
    node: usize,
    counted: impl Fn(&Case, usize) -> bool,
) -> (i128, i128) {
    let (mut out, mut into) = (0, 0);
    for (index, arc) in plan.case.arcs.iter().enumerate() {
        if !counted(plan.case, index) {
            continue;
        }
        let (at_from, at_to) = flows(plan, step, index);
        if arc.from == node {
            out += at_from;
        }
        if arc.to == node {
            into += at_to;
        }
    }
    (out, into)
}

/// dt × |flow out - flow in - d|.
pub fn left_33(plan: &Plan, step: usize, index: usize) -> i128 {
    let (out, into) = out_and_in(plan, step, index, |_, _| true);
    plan.case.span(step) * (out - into - wide(plan.node(step, index).d)).abs()
}

pub fn rule_33(plan: &Plan, step: usize, index: usize) -> Vec<Check> {
    let (out, into) = out_and_in(plan, step, index, |_, _| true);
    let (span, d) = (plan.case.span(step), plan.node(step, index).d);
    let left = left_33(plan, step, index);
    let side = format!(
        "{span} × |flow out {} - flow in {} - d {}| = {left}",
        term(out),
        term(into),
        term(d)
    );
    let tolerance = plan.case.mass_tolerance;
    let bound = format!("the mass tolerance {tolerance}");
    let balanced = at_most((&side, left), (&bound, wide(tolerance)), MASS);
    vec![balanced.margin(Bound::Balance)]
}
