//! Edges of 24 and 25, and of 26 at arcs without machines: at the last arc, in the last step.

use super::{Both, Branch};
use crate::model::{
    ArcRow, BOTH_WAYS, COMBINED, COMPRESSOR, MACHINES, PIPE, Pair, REGULATING, REGULATOR, SHORTCUT,
    SINK, SOURCE, VALVE,
};
use crate::rng::Rng;

const P: i64 = 50_000;

/// The most that flows here.
const QMAX: i64 = 100;

/// An arc of this kind between a source and a sink, without flow; where it is artificial, of a station with two machines of which it has the first.
fn joined(pair: &Pair, kind: i64) -> (Branch, [usize; 3]) {
    let mut branch = Branch::beside(pair, 2, 1, 1);
    let (source, sink) = (branch.node(SOURCE, P), branch.node(SINK, P));
    if kind >= SHORTCUT {
        branch.station(&[[QMAX, 2_000]; 2]);
    }
    let arc = branch.arc(kind, source, sink);
    branch.pair.case.arcs[arc].qmax = QMAX;
    if kind >= COMPRESSOR {
        branch.pair.case.arcs[arc].more[MACHINES] = 1;
    }
    (branch, [source, sink, arc])
}

/// The arc's row in the last step: it is to be refused by this number there.
fn refused(pair: &Pair, kind: i64, number: u8, row: [i64; 4]) -> Both {
    let (mut branch, [_, _, arc]) = joined(pair, kind);
    let steps = branch.steps();
    *branch.pair.arc_mut(steps, arc) = row_of(row);
    branch.refused(number, steps, arc)
}

fn row_of([a, b, setting, machines]: [i64; 4]) -> ArcRow {
    ArcRow {
        a,
        b,
        setting,
        machines,
    }
}

/// The same row all along, with what it brings from the source to the sink.
fn accepted(pair: &Pair, kind: i64, row: [i64; 4]) -> Both {
    let (mut branch, [source, sink, arc]) = joined(pair, kind);
    branch.run(arc, row_of(row));
    let flow = if kind == PIPE {
        row[0]
    } else {
        row[0] - row[1]
    };
    if flow < 0 {
        let nodes = &mut branch.pair.case.nodes;
        (nodes[source].kind, nodes[sink].kind) = (SINK, SOURCE);
    }
    branch.supply(source, flow);
    branch.supply(sink, -flow);
    branch.accepted()
}

pub fn edge_24_at_qmax(_: &mut Rng, pair: &Pair) -> Both {
    accepted(pair, VALVE, [QMAX, 0, 1, 0])
}

pub fn edge_24_past_qmax(_: &mut Rng, pair: &Pair) -> Both {
    refused(pair, VALVE, 24, [QMAX + 1, 0, 1, 0])
}

pub fn edge_24_back_at_qmax(_: &mut Rng, pair: &Pair) -> Both {
    accepted(pair, VALVE, [0, QMAX, 1, 0])
}

pub fn edge_24_back_past_qmax(_: &mut Rng, pair: &Pair) -> Both {
    refused(pair, VALVE, 24, [0, QMAX + 1, 1, 0])
}

pub fn edge_24_below_0(_: &mut Rng, pair: &Pair) -> Both {
    refused(pair, VALVE, 24, [-1, 0, 1, 0])
}

pub fn edge_24_pipe_back_at_qmax(_: &mut Rng, pair: &Pair) -> Both {
    accepted(pair, PIPE, [-QMAX, -QMAX, 0, 0])
}

pub fn edge_24_pipe_in_past_qmax(_: &mut Rng, pair: &Pair) -> Both {
    refused(pair, PIPE, 24, [-QMAX - 1, -QMAX, 0, 0])
}

pub fn edge_24_pipe_out_past_qmax(_: &mut Rng, pair: &Pair) -> Both {
    refused(pair, PIPE, 24, [QMAX, QMAX + 1, 0, 0])
}

pub fn edge_24_regulator_back(_: &mut Rng, pair: &Pair) -> Both {
    refused(pair, REGULATOR, 24, [0, 1, 0, 0])
}

pub fn edge_24_regulator_set(_: &mut Rng, pair: &Pair) -> Both {
    refused(pair, REGULATOR, 24, [0, 0, 1, 0])
}

pub fn edge_24_pipe_set(_: &mut Rng, pair: &Pair) -> Both {
    refused(pair, PIPE, 24, [0, 0, 1, 0])
}

pub fn edge_24_valve_at_2(_: &mut Rng, pair: &Pair) -> Both {
    refused(pair, VALVE, 24, [0, 0, 2, 0])
}

pub fn edge_24_regulating_at_3(_: &mut Rng, pair: &Pair) -> Both {
    refused(pair, REGULATING, 24, [0, 0, 3, 0])
}

pub fn edge_24_combined_at_5(_: &mut Rng, pair: &Pair) -> Both {
    refused(pair, COMBINED, 24, [0, 0, 5, 0])
}

/// A combined arc that goes one way.
fn one_way(pair: &Pair, setting: i64) -> Both {
    let (mut branch, [_, _, arc]) = joined(pair, COMBINED);
    let steps = branch.steps();
    branch.pair.case.arcs[arc].more[BOTH_WAYS] = 0;
    branch.pair.arc_mut(steps, arc).setting = setting;
    branch.refused(24, steps, arc)
}

pub fn edge_24_one_way_regulating_back(_: &mut Rng, pair: &Pair) -> Both {
    one_way(pair, 2)
}

pub fn edge_24_one_way_compressing_back(_: &mut Rng, pair: &Pair) -> Both {
    one_way(pair, 4)
}

pub fn edge_24_machine_of_another_arc(_: &mut Rng, pair: &Pair) -> Both {
    refused(pair, COMPRESSOR, 24, [0, 0, 1, 2])
}

pub fn edge_24_machine_of_a_regulating_arc(_: &mut Rng, pair: &Pair) -> Both {
    refused(pair, REGULATING, 24, [0, 0, 1, 1])
}

pub fn edge_25_shut(_: &mut Rng, pair: &Pair) -> Both {
    refused(pair, VALVE, 25, [0, 1, 0, 0])
}

pub fn edge_25_off(_: &mut Rng, pair: &Pair) -> Both {
    refused(pair, SHORTCUT, 25, [1, 0, 0, 0])
}

pub fn edge_25_back_when_forward(_: &mut Rng, pair: &Pair) -> Both {
    refused(pair, SHORTCUT, 25, [0, 1, 1, 0])
}

pub fn edge_25_forth_when_backward(_: &mut Rng, pair: &Pair) -> Both {
    refused(pair, SHORTCUT, 25, [1, 0, 2, 0])
}

pub fn edge_25_valve_both_ways(_: &mut Rng, pair: &Pair) -> Both {
    accepted(pair, VALVE, [2, 1, 1, 0])
}

/// The pressure at the sink, `more` above that at the source, in the last step.
fn uneven(pair: &Pair, kind: i64, setting: i64, more: i64) -> (Branch, usize) {
    let (mut branch, [_, sink, arc]) = joined(pair, kind);
    let steps = branch.steps();
    branch.pair.arc_mut(steps, arc).setting = setting;
    branch.pair.node_mut(steps, sink).p = P + more;
    (branch, arc)
}

fn uneven_refused(pair: &Pair, kind: i64, setting: i64, more: i64) -> Both {
    let (branch, arc) = uneven(pair, kind, setting, more);
    branch.refused(26, branch.steps(), arc)
}

pub fn edge_26_valve_1_up(_: &mut Rng, pair: &Pair) -> Both {
    uneven_refused(pair, VALVE, 1, 1)
}

pub fn edge_26_shortcut_1_down(_: &mut Rng, pair: &Pair) -> Both {
    uneven_refused(pair, SHORTCUT, 2, -1)
}

pub fn edge_26_regulator_level(_: &mut Rng, pair: &Pair) -> Both {
    accepted(pair, REGULATOR, [QMAX, 0, 0, 0])
}

pub fn edge_26_regulator_1_up(_: &mut Rng, pair: &Pair) -> Both {
    uneven_refused(pair, REGULATOR, 0, 1)
}

pub fn edge_26_regulating_level(_: &mut Rng, pair: &Pair) -> Both {
    accepted(pair, REGULATING, [0, QMAX, 2, 0])
}

pub fn edge_26_regulating_1_up(_: &mut Rng, pair: &Pair) -> Both {
    uneven_refused(pair, REGULATING, 1, 1)
}

pub fn edge_26_regulating_back_1_up(_: &mut Rng, pair: &Pair) -> Both {
    uneven_refused(pair, COMBINED, 2, -1)
}

/// Shut or off, the pressures may differ.
pub fn edge_26_shut(_: &mut Rng, pair: &Pair) -> Both {
    uneven(pair, VALVE, 0, 1).0.accepted()
}
