//! Edges of 21 to 23 and of 33: at a node without arcs, which is the last one, in the last step.

use super::{Both, Branch};
use crate::model::{INNER, MOST_FLOW, NodeRow, Pair, SINK, SOURCE, VALVE};
use crate::rng::Rng;

const LOW: i64 = 40_000;
const ACTLOW: i64 = 45_000;
const ACTHIGH: i64 = 55_000;
const HIGH: i64 = 60_000;

/// A node with bounds that differ, amid its active range, and its demand in the last step, which slack alone meets.
fn bounded(pair: &Pair, kind: i64, demand: i64) -> (Branch, usize) {
    let mut branch = Branch::beside(pair, 1, 0, 0);
    let node = branch.node(kind, 50_000);
    let steps = branch.steps();
    let its = &mut branch.pair.case.nodes[node];
    (its.low, its.actlow, its.acthigh, its.high) = (LOW, ACTLOW, ACTHIGH, HIGH);
    its.demands[steps - 1] = demand;
    let row = branch.pair.node_mut(steps, node);
    (row.s_plus, row.s_minus) = (demand.max(0), (-demand).max(0));
    (branch, node)
}

/// The last step's row is changed: the node is to be refused by this number there.
fn refused(pair: &Pair, kind: i64, demand: i64, number: u8, change: impl Fn(&mut NodeRow)) -> Both {
    let (mut branch, node) = bounded(pair, kind, demand);
    let steps = branch.steps();
    change(branch.pair.node_mut(steps, node));
    branch.refused(number, steps, node)
}

fn accepted(pair: &Pair, kind: i64, demand: i64, change: impl Fn(&mut NodeRow)) -> Both {
    let (mut branch, node) = bounded(pair, kind, demand);
    let steps = branch.steps();
    change(branch.pair.node_mut(steps, node));
    branch.accepted()
}

pub fn edge_21_inner_d(_: &mut Rng, pair: &Pair) -> Both {
    refused(pair, INNER, 0, 21, |row| row.d = 1)
}

pub fn edge_21_inner_s_plus(_: &mut Rng, pair: &Pair) -> Both {
    refused(pair, INNER, 0, 21, |row| row.s_plus = 1)
}

pub fn edge_21_inner_s_minus(_: &mut Rng, pair: &Pair) -> Both {
    refused(pair, INNER, 0, 21, |row| row.s_minus = 1)
}

/// Within what a boundary node with these bounds may have.
pub fn edge_21_inner_u_plus(_: &mut Rng, pair: &Pair) -> Both {
    refused(pair, INNER, 0, 21, |row| row.u_plus = 1)
}

pub fn edge_21_inner_u_minus(_: &mut Rng, pair: &Pair) -> Both {
    refused(pair, INNER, 0, 21, |row| row.u_minus = 1)
}

/// At low, with all the slack that is left.
pub fn edge_21_at_low(_: &mut Rng, pair: &Pair) -> Both {
    accepted(pair, SOURCE, 7, |row| {
        (row.p, row.u_plus) = (LOW, ACTLOW - LOW);
    })
}

pub fn edge_21_below_low(_: &mut Rng, pair: &Pair) -> Both {
    refused(pair, SOURCE, 7, 21, |row| {
        (row.p, row.u_plus) = (LOW - 1, ACTLOW - LOW);
    })
}

pub fn edge_21_u_plus_past_its_limit(_: &mut Rng, pair: &Pair) -> Both {
    refused(pair, SOURCE, 7, 21, |row| row.u_plus = ACTLOW - LOW + 1)
}

pub fn edge_21_at_high(_: &mut Rng, pair: &Pair) -> Both {
    accepted(pair, SINK, -7, |row| {
        (row.p, row.u_minus) = (HIGH, HIGH - ACTHIGH);
    })
}

pub fn edge_21_above_high(_: &mut Rng, pair: &Pair) -> Both {
    refused(pair, SINK, -7, 21, |row| {
        (row.p, row.u_minus) = (HIGH + 1, HIGH - ACTHIGH);
    })
}

pub fn edge_21_u_minus_past_its_limit(_: &mut Rng, pair: &Pair) -> Both {
    refused(pair, SINK, -7, 21, |row| row.u_minus = HIGH - ACTHIGH + 1)
}

pub fn edge_21_source_takes(_: &mut Rng, pair: &Pair) -> Both {
    refused(pair, SOURCE, 0, 21, |row| (row.d, row.s_plus) = (-1, 1))
}

pub fn edge_21_sink_gives(_: &mut Rng, pair: &Pair) -> Both {
    refused(pair, SINK, 0, 21, |row| (row.d, row.s_minus) = (1, 1))
}

pub fn edge_21_most_s_plus(_: &mut Rng, pair: &Pair) -> Both {
    accepted(pair, SOURCE, MOST_FLOW, |_| {})
}

pub fn edge_21_past_most_s_plus(_: &mut Rng, pair: &Pair) -> Both {
    refused(pair, SOURCE, MOST_FLOW, 21, |row| {
        (row.s_plus, row.s_minus) = (MOST_FLOW + 1, 1);
    })
}

pub fn edge_21_most_s_minus(_: &mut Rng, pair: &Pair) -> Both {
    accepted(pair, SINK, -MOST_FLOW, |_| {})
}

pub fn edge_21_past_most_s_minus(_: &mut Rng, pair: &Pair) -> Both {
    refused(pair, SINK, -MOST_FLOW, 21, |row| {
        (row.s_plus, row.s_minus) = (1, MOST_FLOW + 1);
    })
}

/// A source that gives all that it may, through an open valve, to a sink.
fn most_d() -> (Branch, [usize; 2]) {
    let mut branch = Branch::alone(&[1], 0);
    let (source, sink) = (branch.node(SOURCE, 50_000), branch.node(SINK, 50_000));
    let valve = branch.arc(VALVE, source, sink);
    let row = branch.pair.arc_mut(1, valve);
    (row.a, row.setting) = (MOST_FLOW, 1);
    branch.supply(source, MOST_FLOW);
    branch.supply(sink, -MOST_FLOW);
    (branch, [source, sink])
}

pub fn edge_21_most_d(_: &mut Rng, _: &Pair) -> Both {
    most_d().0.accepted()
}

pub fn edge_21_source_past_most_d(_: &mut Rng, _: &Pair) -> Both {
    let (mut branch, [source, _]) = most_d();
    let row = branch.pair.node_mut(1, source);
    (row.d, row.s_minus) = (MOST_FLOW + 1, 1);
    branch.refused(21, 1, source)
}

pub fn edge_21_sink_past_most_d(_: &mut Rng, _: &Pair) -> Both {
    let (mut branch, [_, sink]) = most_d();
    let row = branch.pair.node_mut(1, sink);
    (row.d, row.s_plus) = (-MOST_FLOW - 1, 1);
    branch.refused(21, 1, sink)
}

/// Slack below 0, which the other slack makes up for.
pub fn edge_21_s_plus_below_0(_: &mut Rng, pair: &Pair) -> Both {
    refused(pair, SOURCE, 7, 21, |row| {
        (row.d, row.s_plus) = (8, -1);
    })
}

pub fn edge_21_s_minus_below_0(_: &mut Rng, pair: &Pair) -> Both {
    refused(pair, SINK, -7, 21, |row| {
        (row.d, row.s_minus) = (-8, -1);
    })
}

pub fn edge_21_u_plus_below_0(_: &mut Rng, pair: &Pair) -> Both {
    refused(pair, SOURCE, 7, 21, |row| row.u_plus = -1)
}

pub fn edge_21_u_minus_below_0(_: &mut Rng, pair: &Pair) -> Both {
    refused(pair, SINK, -7, 21, |row| row.u_minus = -1)
}

pub fn edge_22_one_more(_: &mut Rng, pair: &Pair) -> Both {
    refused(pair, SOURCE, 7, 22, |row| row.s_plus = 8)
}

pub fn edge_22_one_less(_: &mut Rng, pair: &Pair) -> Both {
    refused(pair, SINK, -7, 22, |row| row.s_minus = 6)
}

pub fn edge_22_swapped(_: &mut Rng, pair: &Pair) -> Both {
    refused(pair, SOURCE, 7, 22, |row| {
        (row.s_plus, row.s_minus) = (row.s_minus, row.s_plus);
    })
}

/// 1 mbar less slack than the active range asks for.
pub fn edge_23_below_active_low(_: &mut Rng, pair: &Pair) -> Both {
    refused(pair, SOURCE, 7, 23, |row| {
        (row.p, row.u_plus) = (LOW, ACTLOW - LOW - 1);
    })
}

pub fn edge_23_above_active_high(_: &mut Rng, pair: &Pair) -> Both {
    refused(pair, SINK, -7, 23, |row| {
        (row.p, row.u_minus) = (HIGH, HIGH - ACTHIGH - 1);
    })
}

/// Where D is 0 the active range is not asked about.
pub fn edge_23_without_demand(_: &mut Rng, pair: &Pair) -> Both {
    accepted(pair, SOURCE, 0, |row| row.p = LOW)
}

/// A source alone gives d, which nothing takes, in the last of two steps of 1 and of 500 s, where E is 1,500 g.
fn left_over(d: i64) -> (Branch, usize) {
    let mut branch = Branch::alone(&[1, 501], 1_500);
    let node = branch.node(SOURCE, 50_000);
    branch.pair.case.nodes[node].demands[1] = d;
    branch.pair.node_mut(2, node).d = d;
    (branch, node)
}

pub fn edge_33_at_e(_: &mut Rng, _: &Pair) -> Both {
    left_over(3).0.accepted()
}

pub fn edge_33_past_e(_: &mut Rng, _: &Pair) -> Both {
    let (branch, node) = left_over(4);
    branch.refused(33, 2, node)
}

/// As far past E, with gas that comes from nowhere.
pub fn edge_33_past_e_at_a_sink(_: &mut Rng, _: &Pair) -> Both {
    let (mut branch, node) = left_over(-4);
    branch.pair.case.nodes[node].kind = SINK;
    branch.refused(33, 2, node)
}
