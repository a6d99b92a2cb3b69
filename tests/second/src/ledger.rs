//! The ledger of a node set between two steps: the questions 40 and 41 and six figures.

use crate::case::{self, Case, holds};
use crate::plan::{self, Plan, rule_28_left_side, rule_33_left_side};
use crate::verdict::{Answer, Refusal, ask};
use crate::wide;

/// Nodes are the bits below this one.
const SET_BITS: usize = 60;

#[derive(Clone, Copy, Debug, Default, PartialEq, Eq)]
pub struct Ledger {
    pub nodes: i128,
    pub inner_pipes: i128,
    pub gas_at_s: i128,
    pub gas_at_t: i128,
    pub brought_in: i128,
    pub residual: i128,
}

impl Ledger {
    /// The six figures in the document's order.
    pub fn figures(&self) -> [i128; 6] {
        [
            self.nodes,
            self.inner_pipes,
            self.gas_at_s,
            self.gas_at_t,
            self.brought_in,
            self.residual,
        ]
    }
}

/// Judges case and plan, then draws up the ledger.
pub fn ledger(case_list: &[i64], plan_list: &[i64], set: i64, s: i64, t: i64) -> Answer<Ledger> {
    let case = case::judge(case_list)?;
    let (plan, _) = plan::judge_plan(&case, plan_list)?;
    rule_40_set_names_nodes(&case, set)?;
    let (s, t) = rule_41_steps_in_order(&case, s, t)?;
    Ok(draw_up(&plan, set, s, t))
}

fn rule_40_set_names_nodes(case: &Case, set: i64) -> Answer<()> {
    let is_a_set = (0..1 << SET_BITS).contains(&set);
    ask(40, is_a_set, 0, 0)?;
    match (case.nodes.len()..SET_BITS).find(|&bit| holds(set, bit)) {
        None => Ok(()),
        Some(stranger) => Err(Refusal::new(40, 0, stranger)),
    }
}

fn rule_41_steps_in_order(case: &Case, s: i64, t: i64) -> Answer<(usize, usize)> {
    let steps = case.spans.len() as i64;
    ask(41, 0 <= s && s <= t && t <= steps, 0, 0)?;
    Ok((s as usize, t as usize))
}

fn draw_up(plan: &Plan, set: i64, s: usize, t: usize) -> Ledger {
    let nodes: Vec<usize> = (0..plan.case.nodes.len())
        .filter(|&node| holds(set, node))
        .collect();
    let pipes: Vec<usize> = (0..plan.case.arcs.len())
        .filter(|&arc| is_inner_pipe(plan.case, set, arc))
        .collect();
    let gas = |step| pipes.iter().map(|&pipe| plan.gas(step, pipe)).sum();
    let mut ledger = Ledger {
        nodes: nodes.len() as i128,
        inner_pipes: pipes.len() as i128,
        gas_at_s: gas(s),
        gas_at_t: gas(t),
        ..Ledger::default()
    };
    for step in s + 1..=t {
        ledger.brought_in += brought_in(plan, set, &nodes, step);
        ledger.residual += residual(plan, &nodes, &pipes, step);
    }
    ledger
}

fn is_inner_pipe(case: &Case, set: i64, arc: usize) -> bool {
    let arc = &case.arcs[arc];
    arc.pipe().is_some() && holds(set, arc.from) && holds(set, arc.to)
}

/// dt × (d at the set's nodes + flow into the set over its edge).
fn brought_in(plan: &Plan, set: i64, nodes: &[usize], step: usize) -> i128 {
    let boundary: i128 = nodes
        .iter()
        .map(|&node| plan.boundary_flow(step, node))
        .sum();
    let edge: i128 = (0..plan.case.arcs.len())
        .map(|arc| flow_over_edge(plan, set, step, arc))
        .sum();
    wide(plan.case.spans[step - 1]) * (boundary + edge)
}

/// Flow at the set's end of an arc with one end in the set, inward positive.
fn flow_over_edge(plan: &Plan, set: i64, step: usize, arc: usize) -> i128 {
    let ends = &plan.case.arcs[arc];
    match (holds(set, ends.from), holds(set, ends.to)) {
        (false, true) => plan.flow_at_to(step, arc),
        (true, false) => -plan.flow_at_from(step, arc),
        _ => 0,
    }
}

/// The left sides of 33 at the nodes and of 28 at the pipes.
fn residual(plan: &Plan, nodes: &[usize], pipes: &[usize], step: usize) -> i128 {
    let at_nodes = nodes.iter().map(|&it| rule_33_left_side(plan, step, it));
    let at_pipes = pipes.iter().map(|&it| rule_28_left_side(plan, step, it));
    at_nodes.sum::<i128>() + at_pipes.sum::<i128>()
}
