//! Edges of 13 to 17: the last arc, node, station, direction and machine, and one past each.

use super::super::bit;
use super::{Both, Branch};
use crate::model::{
    ACTIVE, COMPRESSOR, ENTRY, EXIT, MACHINES, OFF, ON, PIPE, Pair, SHORTCUT, VALVE,
};
use crate::rng::Rng;

const P: i64 = 50_000;

pub fn edge_13_last_arc(_: &mut Rng, pair: &Pair) -> Both {
    let mut branch = Branch::beside(pair, 2, 1, 0);
    let (from, to) = (branch.inner(P), branch.inner(P));
    let arc = branch.arc(VALVE, from, to);
    branch.pair.case.arcs[arc].to = from;
    branch.refused(13, 0, arc)
}

pub fn edge_14_last_node(_: &mut Rng, pair: &Pair) -> Both {
    let mut branch = Branch::beside(pair, 3, 2, 2);
    let [one, other, last] = [0; 3].map(|_| branch.inner(P));
    branch.station(&[]);
    branch.arc(SHORTCUT, one, last);
    branch.station(&[]);
    branch.arc(SHORTCUT, other, last);
    branch.refused(14, 0, last)
}

/// A station with so many shortcuts between two nodes, all off.
pub fn crowd(pair: &Pair, arcs: usize) -> Branch {
    let mut branch = Branch::beside(pair, 2, arcs, 1);
    let (from, to) = (branch.inner(P), branch.inner(P));
    branch.station(&[]);
    for _ in 0..arcs {
        branch.arc(SHORTCUT, from, to);
    }
    branch
}

pub fn edge_15_30_arcs(_: &mut Rng, pair: &Pair) -> Both {
    crowd(pair, 30).accepted()
}

pub fn edge_15_31_arcs(_: &mut Rng, pair: &Pair) -> Both {
    let branch = crowd(pair, 31);
    branch.refused(15, 0, branch.last_station())
}

/// A pipe to a fence node, and a shortcut on to a node of the station that is none; all without flow. The station has two directions.
fn fence(pair: &Pair) -> (Branch, [usize; 3]) {
    let mut branch = Branch::beside(pair, 3, 2, 1);
    let nodes = [0; 3].map(|_| branch.inner(P));
    let [outside, fence, inside] = nodes;
    branch.arc(PIPE, outside, fence);
    let station = branch.station(&[]);
    branch.arc(SHORTCUT, fence, inside);
    branch.pair.case.stations[station].directions.push([0; 3]);
    (branch, nodes)
}

/// The last direction holds these nodes as entry and as exit.
fn with_sets(mut branch: Branch, entry: i64, exit: i64) -> Both {
    let station = branch.last_station();
    let direction = &mut branch.pair.case.stations[station].directions[1];
    (direction[ENTRY], direction[EXIT]) = (entry, exit);
    branch.refused(16, 0, station)
}

pub fn edge_16_inside_in_the_last_exit(_: &mut Rng, pair: &Pair) -> Both {
    let (branch, [_, _, inside]) = fence(pair);
    with_sets(branch, 0, bit(inside))
}

pub fn edge_16_outside_in_the_last_entry(_: &mut Rng, pair: &Pair) -> Both {
    let (branch, [outside, _, _]) = fence(pair);
    with_sets(branch, bit(outside), 0)
}

pub fn edge_16_shared_in_the_last(_: &mut Rng, pair: &Pair) -> Both {
    let (branch, [_, fence, _]) = fence(pair);
    with_sets(branch, bit(fence), bit(fence))
}

/// A state's set names the arc past the last.
fn past_the_last_arc(pair: &Pair, set: usize) -> Both {
    let mut branch = crowd(pair, 2);
    let station = branch.last_station();
    branch.pair.case.stations[station].states[0][set] = bit(2);
    branch.refused(17, 0, station)
}

pub fn edge_17_on_past_the_last_arc(_: &mut Rng, pair: &Pair) -> Both {
    past_the_last_arc(pair, ON)
}

pub fn edge_17_off_past_the_last_arc(_: &mut Rng, pair: &Pair) -> Both {
    past_the_last_arc(pair, OFF)
}

pub fn edge_17_past_the_last_machine(_: &mut Rng, pair: &Pair) -> Both {
    let mut branch = Branch::beside(pair, 2, 1, 1);
    let (from, to) = (branch.inner(P), branch.inner(P));
    let station = branch.station(&[[1, 2_000]; 2]);
    let arc = branch.arc(COMPRESSOR, from, to);
    branch.pair.case.arcs[arc].more[MACHINES] = bit(2);
    branch.refused(17, 0, station)
}

/// The last arc's activity at step 0, against the state of step 0, which is the last one.
fn against_the_state(pair: &Pair, set: usize, active: i64) -> Both {
    let mut branch = crowd(pair, 2);
    let (station, arc) = (branch.last_station(), branch.last_arc());
    branch.pair.case.arcs[arc].more[ACTIVE] = active;
    let mut state = [1, 0, 0, 0];
    state[set] = bit(1);
    branch.pair.case.stations[station].states.push(state);
    branch.pair.case.stations[station].state_at_0 = 1;
    branch.refused(17, 0, station)
}

pub fn edge_17_last_arc_on_at_0(_: &mut Rng, pair: &Pair) -> Both {
    against_the_state(pair, ON, 0)
}

pub fn edge_17_last_arc_off_at_0(_: &mut Rng, pair: &Pair) -> Both {
    against_the_state(pair, OFF, 1)
}
