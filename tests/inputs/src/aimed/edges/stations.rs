//! Edges of 30 to 32: the last arc, choice, machine and step, and fence flows of 1 g/s.

use super::super::bit;
use super::case::crowd;
use super::{Both, Branch};
use crate::model::{
    ACTIVE, ArcRow, COMPRESSOR, ENTRY, EXIT, MACHINES, MOST, OFF, ON, PIPE, Pair, SHORTCUT, SINK,
    SOURCE, StationRow,
};
use crate::rng::Rng;

const P: i64 = 50_000;

/// 30 shortcuts, of which a set of the state names the last: it obeys but in the last step.
fn last_arc_disobeys(pair: &Pair, set: usize, obeys: i64) -> Both {
    let mut branch = crowd(pair, 30);
    let (station, arc, steps) = (branch.last_station(), branch.last_arc(), branch.steps());
    branch.pair.case.stations[station].states[0][set] = bit(29);
    branch.pair.case.arcs[arc].more[ACTIVE] = obeys;
    for step in 1..=steps {
        branch.pair.arc_mut(step, arc).setting = obeys;
    }
    branch.pair.arc_mut(steps, arc).setting = 1 - obeys;
    branch.refused(30, steps, station)
}

pub fn edge_30_last_arc_on(_: &mut Rng, pair: &Pair) -> Both {
    last_arc_disobeys(pair, ON, 1)
}

pub fn edge_30_last_arc_off(_: &mut Rng, pair: &Pair) -> Both {
    last_arc_disobeys(pair, OFF, 0)
}

/// Four directions and 16 states; the last state supports the last direction alone, and both are chosen in the last step. What stands after the last state is
/// the next station: read as a state, it supports the same direction and asks for the first arc, which is active.
fn choices(pair: &Pair) -> (Branch, usize) {
    let mut branch = Branch::beside(pair, 4, 2, 2);
    let steps = branch.steps();
    let station = branch.station(&[]);
    let its = &mut branch.pair.case.stations[station];
    its.directions = vec![[0, 0, 1]; 4];
    its.states = vec![[1, 0, 0, 1]; 16];
    its.states[15][0] = bit(3);
    let ends = [0; 4].map(|_| branch.inner(P));
    let arc = branch.arc(SHORTCUT, ends[0], ends[1]);
    branch.pair.arc_mut(steps, arc).setting = 1;
    let next = branch.station(&[]);
    branch.pair.case.stations[next].directions = vec![[0; 3]; 8];
    branch.arc(SHORTCUT, ends[2], ends[3]);
    let row = branch.pair.station_mut(steps, station);
    (row.direction, row.state) = (3, 15);
    (branch, station)
}

pub fn edge_30_last_choice(_: &mut Rng, pair: &Pair) -> Both {
    choices(pair).0.accepted()
}

fn chosen(pair: &Pair, change: impl Fn(&mut StationRow)) -> Both {
    let (mut branch, station) = choices(pair);
    let steps = branch.steps();
    change(branch.pair.station_mut(steps, station));
    branch.refused(30, steps, station)
}

pub fn edge_30_direction_below_0(_: &mut Rng, pair: &Pair) -> Both {
    chosen(pair, |row| row.direction = -1)
}

pub fn edge_30_state_below_0(_: &mut Rng, pair: &Pair) -> Both {
    chosen(pair, |row| (row.direction, row.state) = (0, -1))
}

pub fn edge_30_past_the_last_direction(_: &mut Rng, pair: &Pair) -> Both {
    chosen(pair, |row| row.direction = 4)
}

pub fn edge_30_past_the_last_state(_: &mut Rng, pair: &Pair) -> Both {
    chosen(pair, |row| row.state = 16)
}

pub fn edge_30_last_direction_unsupported(_: &mut Rng, pair: &Pair) -> Both {
    let (mut branch, station) = choices(pair);
    let steps = branch.steps();
    branch.pair.case.stations[station].states[15][0] = bit(3) - 1;
    branch.refused(30, steps, station)
}

/// Twelve machines.
const MACHINES_OF_12: [[i64; 2]; 12] = [[10, 1_500]; 12];

/// Two compressors that run with one machine each, the first and the last one; the later is the last arc.
fn two_compressors(pair: &Pair, stations: usize) -> (Branch, [usize; 2]) {
    let mut branch = Branch::beside(pair, 4, 2, stations);
    let sets = if stations == 2 { [1, 1] } else { [1, bit(11)] };
    let arcs = [0, 1].map(|place| {
        let (from, to) = (branch.inner(P), branch.inner(P));
        if place < stations {
            branch.station(&MACHINES_OF_12);
        }
        let arc = branch.arc(COMPRESSOR, from, to);
        branch.pair.case.arcs[arc].more[MACHINES] = 4_095;
        branch.pair.case.arcs[arc].more[MOST] = 12;
        branch.run(arc, running(0, 0, 1, sets[place]));
        arc
    });
    (branch, arcs)
}

fn running(a: i64, b: i64, setting: i64, machines: i64) -> ArcRow {
    ArcRow {
        a,
        b,
        setting,
        machines,
    }
}

pub fn edge_31_one_each(_: &mut Rng, pair: &Pair) -> Both {
    two_compressors(pair, 1).0.accepted()
}

/// Machine 0 of one station is not machine 0 of the other.
pub fn edge_31_two_stations(_: &mut Rng, pair: &Pair) -> Both {
    two_compressors(pair, 2).0.accepted()
}

/// The last arc takes the first machine too, in the last step.
pub fn edge_31_last_arc(_: &mut Rng, pair: &Pair) -> Both {
    let (mut branch, [_, last]) = two_compressors(pair, 1);
    let steps = branch.steps();
    branch.pair.arc_mut(steps, last).machines = 1 | bit(11);
    branch.refused(31, steps, branch.last_station())
}

/// The arc before it takes the last machine too.
pub fn edge_31_last_machine(_: &mut Rng, pair: &Pair) -> Both {
    let (mut branch, [first, _]) = two_compressors(pair, 1);
    let steps = branch.steps();
    branch.pair.arc_mut(steps, first).machines = 1 | bit(11);
    branch.refused(31, steps, branch.last_station())
}

/// Which of the direction's sets holds the fence node.
#[derive(Clone, Copy)]
enum Part {
    Entry,
    Exit,
    Neither,
}

/// A pipe to the only fence node, the last node, and two shortcuts on from it, with `net` going into the station in the
/// last step and nothing before it. The direction is the last of two; the other has the fence node in another part.
fn fence(pair: &Pair, part: Part, net: i64) -> Branch {
    let mut branch = Branch::beside(pair, 3, 3, 1);
    let ends = if net < 0 {
        [SINK, SOURCE]
    } else {
        [SOURCE, SINK]
    };
    let outside = branch.node(ends[0], P);
    let inside = branch.node(ends[1], P);
    let fence = branch.inner(P);
    let station = branch.station(&[]);
    let arcs = [
        branch.arc(PIPE, outside, fence),
        branch.arc(SHORTCUT, fence, inside),
        branch.arc(SHORTCUT, inside, fence),
    ];
    let steps = branch.steps();
    let mut sets = [0; 3];
    let mut others = [0; 3];
    match part {
        Part::Entry => (sets[ENTRY], others[EXIT]) = (bit(fence), bit(fence)),
        Part::Exit => (sets[EXIT], others[ENTRY]) = (bit(fence), bit(fence)),
        Part::Neither => others[ENTRY] = bit(fence),
    }
    branch.pair.case.stations[station].directions = vec![others, sets];
    branch.pair.case.stations[station].states[0][0] = 3;
    branch.pair.case.stations[station].direction_at_0 = 1;
    for step in 1..=steps {
        branch.pair.station_mut(step, station).direction = 1;
    }
    for (node, d) in [(outside, net), (inside, -net)] {
        branch.pair.case.nodes[node].demands[steps - 1] = d;
        branch.pair.node_mut(steps, node).d = d;
    }
    *branch.pair.arc_mut(steps, arcs[0]) = running(net, net, 0, 0);
    through(&mut branch, &arcs[1..], net);
    branch
}

/// 5 g/s more than the net flow on the shortcut that goes that way, and 5 g/s back on the other.
fn through(branch: &mut Branch, shortcuts: &[usize], net: i64) {
    let steps = branch.steps();
    let rows = if net < 0 {
        [running(0, 5 - net, 2, 0), running(0, 5, 2, 0)]
    } else {
        [running(net + 5, 0, 1, 0), running(5, 0, 1, 0)]
    };
    for (&arc, row) in shortcuts.iter().zip(rows) {
        *branch.pair.arc_mut(steps, arc) = row;
    }
}

fn passed(pair: &Pair, part: Part, net: i64) -> Both {
    fence(pair, part, net).accepted()
}

fn failed(pair: &Pair, part: Part, net: i64) -> Both {
    let branch = fence(pair, part, net);
    branch.refused(32, branch.steps(), branch.last_station())
}

pub fn edge_32_entry_in(_: &mut Rng, pair: &Pair) -> Both {
    passed(pair, Part::Entry, 1)
}

pub fn edge_32_entry_still(_: &mut Rng, pair: &Pair) -> Both {
    passed(pair, Part::Entry, 0)
}

pub fn edge_32_entry_out(_: &mut Rng, pair: &Pair) -> Both {
    failed(pair, Part::Entry, -1)
}

pub fn edge_32_exit_out(_: &mut Rng, pair: &Pair) -> Both {
    passed(pair, Part::Exit, -1)
}

pub fn edge_32_exit_still(_: &mut Rng, pair: &Pair) -> Both {
    passed(pair, Part::Exit, 0)
}

pub fn edge_32_exit_in(_: &mut Rng, pair: &Pair) -> Both {
    failed(pair, Part::Exit, 1)
}

pub fn edge_32_neither_still(_: &mut Rng, pair: &Pair) -> Both {
    passed(pair, Part::Neither, 0)
}

pub fn edge_32_neither_in(_: &mut Rng, pair: &Pair) -> Both {
    failed(pair, Part::Neither, 1)
}

pub fn edge_32_neither_out(_: &mut Rng, pair: &Pair) -> Both {
    failed(pair, Part::Neither, -1)
}
