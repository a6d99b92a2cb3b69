//! The balance of a region, step by step.

use gasplan::Answer;
use gasplan_text::model::Plan;
use gasplan_text::words::items;

use crate::check::wide;
use crate::node_rules::{flows, left_33};
use crate::pipe_rules::left_28;

/// One step's figures of a region, in g.
#[derive(Clone, Copy, Debug, PartialEq, Eq)]
pub struct StepBalance {
    pub gas_before: i128,
    pub gas_after: i128,
    pub brought_in: i128,
    pub residual: i128,
}

pub struct Balance {
    pub set: i64,
    /// Step 1 first.
    pub steps: Vec<StepBalance>,
    /// Are the figures the library's?
    pub vouched: bool,
}

/// The library's ledger of each step.
pub fn of_library(case: &[i64], plan: &[i64], set: i64, steps: usize) -> Answer<Balance> {
    let mut balance = Balance {
        set,
        steps: Vec::new(),
        vouched: true,
    };
    for step in 1..=steps as i64 {
        let ledger = gasplan::ledger(case, plan, set, step - 1, step)?;
        balance.steps.push(StepBalance {
            gas_before: wide(ledger.gas_at_s),
            gas_after: wide(ledger.gas_at_t),
            brought_in: wide(ledger.brought_in),
            residual: wide(ledger.residual),
        });
    }
    Ok(balance)
}

/// The same sums made here, for a plan that the library refuses.
pub fn of_sums(plan: &Plan, set: i64) -> Balance {
    let steps = 1..=plan.case.steps();
    Balance {
        set,
        steps: steps.map(|step| sums(plan, set, step)).collect(),
        vouched: false,
    }
}

fn sums(plan: &Plan, set: i64, step: usize) -> StepBalance {
    let nodes: Vec<usize> = (0..plan.case.nodes.len())
        .filter(|node| items(set).contains(node))
        .collect();
    let holds = |node: usize| nodes.contains(&node);
    let mut brought: i128 = nodes
        .iter()
        .map(|&node| wide(plan.node(step, node).d))
        .sum();
    let mut residual: i128 = nodes.iter().map(|&node| left_33(plan, step, node)).sum();
    let (mut before, mut after) = (0, 0);
    for (index, arc) in plan.case.arcs.iter().enumerate() {
        let (at_from, at_to) = flows(plan, step, index);
        match (holds(arc.from), holds(arc.to)) {
            (true, true) => {
                before += gas(plan, step - 1, index);
                after += gas(plan, step, index);
                residual += left_28(plan, step, index).abs();
            }
            (true, false) => brought -= at_from,
            (false, true) => brought += at_to,
            (false, false) => {}
        }
    }
    StepBalance {
        gas_before: before,
        gas_after: after,
        brought_in: plan.case.span(step) * brought,
        residual,
    }
}

/// c × (from + to) of a pipe, 0 of any other arc.
fn gas(plan: &Plan, step: usize, index: usize) -> i128 {
    let arc = &plan.case.arcs[index];
    let c = arc.pipe().map_or(0, |[c, ..]| c);
    wide(c) * (wide(plan.pressure(step, arc.from)) + wide(plan.pressure(step, arc.to)))
}
