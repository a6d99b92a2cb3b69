//! A network of three steps whose totals and ledger figures were worked out by hand.
//!
//! Steps of 10, 20 and 40 s. A pipe goes from node 0 to 1 (c is 7) and another, the last arc, from 1 to 2 (c is 11).
//! A regulator goes from 0 to 6, the last node, and an open valve from 6 to 5. Nodes 3 and 4 are a station's, with two
//! shortcuts between them.
//!
//! | | at 0 | step 1 | step 2 | step 3 | sum |
//! |---|---|---|---|---|---|
//! | gas of the pipe from 0 | 14,000 | 14,007 | 14,021 | 14,021 | |
//! | gas of the pipe from 1 | 22,000 | 22,000 | 22,022 | 22,077 | |
//! | 28 at the pipe from 0 | | 10 - 7 | 20 - 14 | 40 - 0 | 49 |
//! | 28 at the pipe from 1 | | -10 - 0 | 20 - 22 | 40 - 55 | 27 |
//! | 33 at node 0 | | 0 | 0 | 40 × -1 | 40 |
//! | 33 at node 1 | | 10 × -1 | 0 | 0 | 10 |
//! | 33 at node 2 | | 0 | 20 × 1 | 0 | 20 |
//! | 33 at node 6 | | 10 × -1 | 20 × -1 | 40 × -1 | 70 |
//! | d of all nodes | | 10 × 2 | 20 × 2 | 40 × 4 | 220 |
//! | weights | | 2 | 20 + 100 | 1 + 1,000 | 1,123 |
//! | u+, u- | | 4 + 2 | 4 + 2 | 4 + 7 | 23 |
//! | s+, s- | | 1 | 2 | 4 + 3 | 10 |

use super::super::refused;
use super::turned::turned_set;
use super::{Both, Branch, Edge, Expect, LedgerEdge, LedgerEdgeOf};
use crate::model::{
    ACTIVE, C, INNER, NodeRow, PIPE, Pair, REGULATOR, SHORTCUT, SINK, SOURCE, VALVE, WEIGHT,
};
use crate::rng::Rng;

/// p, d, s+, s-, u+, u- of node 0 and node 2 in each step.
const SOURCE_ROWS: [[i64; 6]; 3] = [
    [1_001, 7, 1, 0, 4, 0],
    [1_001, 8, 0, 2, 4, 0],
    [1_001, 10, 4, 0, 4, 0],
];
const SINK_ROWS: [[i64; 6]; 3] = [
    [1_000, -4, 0, 0, 0, 2],
    [1_000, -5, 0, 0, 0, 2],
    [1_005, -5, 0, 3, 0, 7],
];

/// a and b of the two pipes in each step.
const PIPE_FLOWS: [[[i64; 2]; 2]; 3] = [[[5, 4], [3, 4]], [[6, 5], [5, 4]], [[7, 6], [6, 5]]];

/// The arcs in their order.
const SHORTCUTS: [usize; 2] = [0, 1];
const PIPES: [usize; 2] = [2, 5];
const THE_REGULATOR: usize = 3;
const THE_VALVE: usize = 4;

fn known() -> Branch {
    let mut branch = Branch::alone(&[10, 30, 70], 100);
    branch.pair.case.pressure_tolerance = 1_000;
    let kinds = [SOURCE, INNER, SINK, INNER, INNER, SOURCE, SINK];
    let pressures = [1_000, 1_000, 1_000, 900, 900, 900, 900];
    for (kind, p) in kinds.into_iter().zip(pressures) {
        branch.node(kind, p);
    }
    branch.station(&[]);
    let ends = [(3, 4), (3, 4), (0, 1), (0, 6), (6, 5), (1, 2)];
    let kinds = [SHORTCUT, SHORTCUT, PIPE, REGULATOR, VALVE, PIPE];
    for (kind, (from, to)) in kinds.into_iter().zip(ends) {
        branch.arc(kind, from, to);
    }
    for (arc, storage) in PIPES.into_iter().zip([7, 11]) {
        branch.pair.case.arcs[arc].more[C] = storage;
    }
    rows(&mut branch);
    choices(&mut branch);
    branch
}

fn rows(branch: &mut Branch) {
    for (node, d) in [(5, 2), (6, -3)] {
        branch.supply(node, d);
    }
    let nodes = &mut branch.pair.case.nodes;
    nodes[0].actlow = 1_005;
    nodes[2].acthigh = 998;
    for (place, step) in branch.pair.plan.steps.iter_mut().enumerate() {
        for (node, row) in [(0, SOURCE_ROWS[place]), (2, SINK_ROWS[place])] {
            let [p, d, s_plus, s_minus, u_plus, u_minus] = row;
            nodes[node].demands[place] = d + s_plus - s_minus;
            step.nodes[node] = NodeRow {
                p,
                d,
                s_plus,
                s_minus,
                u_plus,
                u_minus,
            };
        }
        step.nodes[1].p = [1_000, 1_002, 1_002][place];
        for (arc, [a, b]) in PIPES.into_iter().zip(PIPE_FLOWS[place]) {
            (step.arcs[arc].a, step.arcs[arc].b) = (a, b);
        }
        step.arcs[THE_REGULATOR].a = 2;
        let valve = &mut step.arcs[THE_VALVE];
        (valve.a, valve.b, valve.setting) = (1, 3, 1);
    }
}

/// The station's direction, its state and the settings of its two shortcuts in each step; at step 0 they are 0, 0, 1 and 0.
const CHOICES: [[i64; 4]; 3] = [[1, 0, 1, 0], [1, 1, 0, 0], [0, 1, 0, 1]];

fn choices(branch: &mut Branch) {
    let case = &mut branch.pair.case;
    case.stations[0].directions = vec![[0, 0, 1], [0, 0, 2]];
    case.stations[0].states = vec![[3, 0, 0, 10], [3, 0, 0, 20]];
    case.arcs[SHORTCUTS[0]].more[ACTIVE] = 1;
    case.arcs[SHORTCUTS[0]].more[WEIGHT] = 100;
    case.arcs[SHORTCUTS[1]].more[WEIGHT] = 1_000;
    for (step, [direction, state, one, other]) in branch.pair.plan.steps.iter_mut().zip(CHOICES) {
        (step.stations[0].direction, step.stations[0].state) = (direction, state);
        step.arcs[SHORTCUTS[0]].setting = one;
        step.arcs[SHORTCUTS[1]].setting = other;
    }
}

pub fn edge_totals(_: &mut Rng, _: &Pair) -> Both {
    known().answered(Expect::Totals([23, 10, 1_123, 216, 36_000, 36_098]))
}

/// The edges of ledgers by their names.
pub const LEDGER_EDGES: &[(&str, LedgerEdgeOf)] = &[
    ("ledger all", edge_ledger_all),
    ("ledger no step", edge_ledger_no_step),
    ("ledger first step", edge_ledger_first_step),
    ("ledger middle step", edge_ledger_middle_step),
    ("ledger last step", edge_ledger_last_step),
    ("ledger pipe out", edge_ledger_pipe_out),
    ("ledger pipe in", edge_ledger_pipe_in),
    ("ledger first pipe", edge_ledger_first_pipe),
    ("ledger last pipe", edge_ledger_last_pipe),
    ("ledger valve", edge_ledger_valve),
    ("40 past the last node", edge_40_past_the_last_node),
    ("40 past every node", edge_40_past_every_node),
    ("40 two past the last node", edge_40_two_past_the_last_node),
    ("ledger no node", edge_ledger_no_node),
    ("40 last bit", edge_40_last_bit),
    ("40 past the last bit", edge_40_past_the_last_bit),
    ("41 below 0", edge_41_below_0),
    ("41 turned", edge_41_turned),
    ("41 past the last step", edge_41_past_the_last_step),
];

const NODES: usize = 7;

/// Every node.
const ALL: i64 = (1 << NODES) - 1;

fn drawn(set: i64, s: i64, t: i64, expect: Expect) -> [LedgerEdge; 2] {
    let sets = [set, turned_set(set, NODES)];
    let edge = |(edge, set): (Edge, i64)| LedgerEdge {
        case: edge.case,
        plan: edge.plan,
        set,
        s,
        t,
        expect,
    };
    let [one, other] = known().accepted();
    [(one, sets[0]), (other, sets[1])].map(edge)
}

fn figures(set: i64, s: i64, t: i64, figures: [i64; 6]) -> [LedgerEdge; 2] {
    drawn(set, s, t, Expect::Totals(figures))
}

fn refused_by(number: u8, place: usize, set: i64, s: i64, t: i64) -> [LedgerEdge; 2] {
    drawn(set, s, t, Expect::Refused(refused(number, 0, place)))
}

fn edge_ledger_all() -> [LedgerEdge; 2] {
    figures(ALL, 0, 3, [7, 2, 36_000, 36_098, 220, 216])
}

fn edge_ledger_no_step() -> [LedgerEdge; 2] {
    figures(ALL, 2, 2, [7, 2, 36_043, 36_043, 0, 0])
}

fn edge_ledger_first_step() -> [LedgerEdge; 2] {
    figures(ALL, 0, 1, [7, 2, 36_000, 36_007, 20, 33])
}

fn edge_ledger_middle_step() -> [LedgerEdge; 2] {
    figures(ALL, 1, 2, [7, 2, 36_007, 36_043, 40, 48])
}

fn edge_ledger_last_step() -> [LedgerEdge; 2] {
    figures(ALL, 2, 3, [7, 2, 36_043, 36_098, 160, 135])
}

/// The edge pipe begins in the set.
fn edge_ledger_pipe_out() -> [LedgerEdge; 2] {
    figures(0b1, 0, 3, [1, 0, 0, 0, 40, 40])
}

/// The edge pipe ends in the set.
fn edge_ledger_pipe_in() -> [LedgerEdge; 2] {
    figures(0b100, 0, 3, [1, 0, 0, 0, -20, 20])
}

/// A pipe inside and a pipe that leaves, and the other way round.
fn edge_ledger_first_pipe() -> [LedgerEdge; 2] {
    figures(0b11, 0, 3, [2, 1, 14_000, 14_021, 120, 99])
}

fn edge_ledger_last_pipe() -> [LedgerEdge; 2] {
    figures(0b110, 0, 3, [2, 1, 22_000, 22_077, 40, 57])
}

/// The regulator ends in the set, and the valve, on which gas flows backward, begins in it.
fn edge_ledger_valve() -> [LedgerEdge; 2] {
    figures(0b100_0000, 0, 3, [1, 0, 0, 0, 70, 70])
}

fn edge_ledger_no_node() -> [LedgerEdge; 2] {
    figures(0, 0, 3, [0; 6])
}

/// Past the last node, alone and above every node.
fn edge_40_past_the_last_node() -> [LedgerEdge; 2] {
    refused_by(40, NODES, 1 << NODES, 0, 3)
}

fn edge_40_past_every_node() -> [LedgerEdge; 2] {
    refused_by(40, NODES, (4 << NODES) - 1, 0, 3)
}

fn edge_40_two_past_the_last_node() -> [LedgerEdge; 2] {
    refused_by(40, NODES + 1, 2 << NODES, 0, 3)
}

fn edge_40_last_bit() -> [LedgerEdge; 2] {
    refused_by(40, 59, 1 << 59, 3, 0)
}

fn edge_40_past_the_last_bit() -> [LedgerEdge; 2] {
    refused_by(40, 0, 1 << 60, 0, 3)
}

fn edge_41_below_0() -> [LedgerEdge; 2] {
    refused_by(41, 0, ALL, -1, 3)
}

fn edge_41_turned() -> [LedgerEdge; 2] {
    refused_by(41, 0, ALL, 2, 1)
}

fn edge_41_past_the_last_step() -> [LedgerEdge; 2] {
    refused_by(41, 0, ALL, 3, 4)
}
