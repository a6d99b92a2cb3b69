//! The left sides of 28, 29 and 33, with their signs, and the net flow of 32.
//!
//! For accepted pairs only, whose numbers are small enough for 64 bits.

use crate::model::{C, F, G, H, PIPE, Pair, SHORTCUT};

/// dt × (a - b) - c × (change of p at from + change at to).
pub fn left_28(pair: &Pair, step: usize, arc: usize) -> i64 {
    let row = pair.arc(step, arc);
    let pipe = &pair.case.arcs[arc];
    let sum = |step: usize| pair.pressure(step, pipe.from) + pair.pressure(step, pipe.to);
    pair.case.span(step) * (row.a - row.b) - pipe.more[C] * (sum(step) - sum(step - 1))
}

/// 1,000,000 × (to - from) + f × a + g × b + h × (from + to).
pub fn left_29(pair: &Pair, step: usize, arc: usize) -> i64 {
    let row = pair.arc(step, arc);
    let pipe = &pair.case.arcs[arc];
    let (from, to) = (pair.pressure(step, pipe.from), pair.pressure(step, pipe.to));
    let friction = pipe.more[F] * row.a + pipe.more[G] * row.b;
    1_000_000 * (to - from) + friction + pipe.more[H] * (from + to)
}

/// dt × (flow out - flow in - d).
pub fn left_33(pair: &Pair, step: usize, node: usize) -> i64 {
    let flows = (0..pair.case.arcs.len()).map(|arc| flow_out(pair, step, node, arc));
    pair.case.span(step) * (flows.sum::<i64>() - pair.node(step, node).d)
}

/// Net flow from the node into artificial arcs.
pub fn net_32(pair: &Pair, step: usize, node: usize) -> i64 {
    let arcs = 0..pair.case.arcs.len();
    arcs.filter(|&arc| pair.case.arcs[arc].kind >= SHORTCUT)
        .map(|arc| flow_out(pair, step, node, arc))
        .sum()
}

/// What leaves the node by the arc.
fn flow_out(pair: &Pair, step: usize, node: usize, arc: usize) -> i64 {
    let row = pair.arc(step, arc);
    let ends = &pair.case.arcs[arc];
    let is_pipe = ends.kind == PIPE;
    if ends.from == node {
        row.a - if is_pipe { 0 } else { row.b }
    } else if ends.to == node {
        if is_pipe { -row.b } else { row.b - row.a }
    } else {
        0
    }
}
