//! The largest case, in which only the last items do something, and only in the last step.
//!
//! 60 nodes, 120 arcs, 8 stations and 48 steps of 1 s. Station s has the nodes 2s and 2s + 1, with 13 shortcuts between
//! them, and the last station has the last arc too. The pipe, arc 118, goes from node 58 to node 59. E is 0.

use super::{Both, Branch, Expect};
use crate::model::{C, INNER, MOST_PRESSURE, PIPE, Pair, SHORTCUT, SINK, SOURCE, VALVE, WEIGHT};
use crate::rng::Rng;

const STEPS: usize = 48;
const STATIONS: usize = 8;
const OWN_ARCS: usize = 13;
const LAST_NODE: usize = 59;
const THE_PIPE: usize = 118;
const LAST_ARC: usize = 119;
const LAST_STATION: usize = 7;

fn largest() -> Branch {
    let times: Vec<i64> = (1..=STEPS as i64).collect();
    let mut branch = Branch::alone(&times, 0);
    for node in 0..=LAST_NODE {
        let kind = match node {
            58 => SOURCE,
            LAST_NODE => SINK,
            _ => INNER,
        };
        branch.node(kind, MOST_PRESSURE);
    }
    for station in 0..STATIONS {
        branch.station(&[]);
        for _ in 0..OWN_ARCS {
            branch.arc(SHORTCUT, 2 * station, 2 * station + 1);
        }
    }
    for _ in STATIONS * OWN_ARCS..THE_PIPE {
        branch.arc(VALVE, 20, 21);
    }
    branch.arc(PIPE, 58, LAST_NODE);
    branch.arc(SHORTCUT, 2 * LAST_STATION, 2 * LAST_STATION + 1);
    last_step(&mut branch);
    branch
}

/// 1 g/s flows through the pipe, the last arc is active, and the last direction and the last state are chosen.
fn last_step(branch: &mut Branch) {
    let case = &mut branch.pair.case;
    case.arcs[THE_PIPE].more[C] = 100_000_000;
    case.arcs[LAST_ARC].more[WEIGHT] = 1_000_000;
    case.stations[LAST_STATION].directions = vec![[0, 0, 300]; 8];
    case.stations[LAST_STATION].states = vec![[255, 0, 0, 20]; 16];
    for (node, d) in [(58, 1), (LAST_NODE, -1)] {
        branch.pair.case.nodes[node].demands[STEPS - 1] = d;
        branch.pair.node_mut(STEPS, node).d = d;
    }
    let row = branch.pair.arc_mut(STEPS, THE_PIPE);
    (row.a, row.b) = (1, 1);
    branch.pair.arc_mut(STEPS, LAST_ARC).setting = 1;
    let row = branch.pair.station_mut(STEPS, LAST_STATION);
    (row.direction, row.state) = (7, 15);
}

pub fn edge_totals_largest(_: &mut Rng, _: &Pair) -> Both {
    let gas = 100_000_000 * 2 * MOST_PRESSURE;
    largest().answered(Expect::Totals([0, 0, 1_000_320, 0, gas, gas]))
}

pub fn edge_14_node_59(_: &mut Rng, _: &Pair) -> Both {
    let mut branch = largest();
    branch.pair.case.arcs[0].to = LAST_NODE;
    branch.pair.case.arcs[LAST_ARC].to = LAST_NODE;
    branch.refused(14, 0, LAST_NODE)
}

pub fn edge_21_node_59(_: &mut Rng, _: &Pair) -> Both {
    let mut branch = largest();
    branch.pair.node_mut(STEPS, LAST_NODE).p += 1;
    branch.refused(21, STEPS, LAST_NODE)
}

pub fn edge_24_arc_119(_: &mut Rng, _: &Pair) -> Both {
    let mut branch = largest();
    branch.pair.arc_mut(STEPS, LAST_ARC).setting = 3;
    branch.refused(24, STEPS, LAST_ARC)
}

pub fn edge_30_station_7(_: &mut Rng, _: &Pair) -> Both {
    let mut branch = largest();
    // The last state's off set has the last arc, the station's 14th.
    branch.pair.case.stations[LAST_STATION].states[15][2] = 1 << OWN_ARCS;
    branch.refused(30, STEPS, LAST_STATION)
}

/// The pipe's to end is a fence node, in neither set, to which gas comes from the station.
pub fn edge_32_node_59(_: &mut Rng, _: &Pair) -> Both {
    let mut branch = largest();
    branch.pair.case.arcs[LAST_ARC].to = LAST_NODE;
    branch.pair.arc_mut(STEPS, LAST_ARC).a = 1;
    branch.refused(32, STEPS, LAST_STATION)
}

pub fn edge_33_node_59(_: &mut Rng, _: &Pair) -> Both {
    let mut branch = largest();
    branch.pair.node_mut(STEPS, LAST_NODE).d = -2;
    branch.pair.case.nodes[LAST_NODE].demands[STEPS - 1] = -2;
    branch.refused(33, STEPS, LAST_NODE)
}
