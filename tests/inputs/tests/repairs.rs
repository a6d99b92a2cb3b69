//! The two ways of rounding pipes that docs/OPTIMISERS.md has beside the nearest: balance first, storage first.

use inputs::aimed::sides::{left_28, left_33};
use inputs::model::{C, PIPE, Pair};
use inputs::rounding::bounds::{Rounded, twice_28, twice_33};
use inputs::rounding::errors::off_by_one;
use inputs::{Rng, generate};

const PAIRS: u64 = 600;
const ALL: Rounded = Rounded::FlowsAndPressures;

fn pipes(pair: &Pair) -> Vec<usize> {
    let arcs = 0..pair.case.arcs.len();
    arcs.filter(|&arc| pair.case.arcs[arc].kind == PIPE)
        .collect()
}

/// The flow of a pipe at one of its ends.
fn flow_at(pair: &Pair, step: usize, pipe: usize, node: usize) -> i64 {
    let row = pair.arc(step, pipe);
    if pair.case.arcs[pipe].from == node {
        row.a
    } else {
        row.b
    }
}

/// Gives the pipe's end at this node what the others leave.
fn balance(pair: &mut Pair, step: usize, pipe: usize, node: usize) {
    let over = left_33(pair, step, node) / pair.case.span(step);
    let leaves = pair.case.arcs[pipe].from == node;
    let row = pair.arc_mut(step, pipe);
    if leaves {
        row.a -= over;
    } else {
        row.b += over;
    }
}

/// Errors of 1: the end is off by the count of the other numbers, and by what the plan itself was off.
#[test]
fn a_pipes_end_balances_its_node() {
    let mut balanced = 0;
    for seed in 0..PAIRS {
        let mut rng = Rng::new(seed);
        let pair = generate::accepted(&mut rng);
        let mut off = off_by_one(&mut rng, &pair, ALL);
        let step = pair.steps();
        for node in 0..pair.case.nodes.len() {
            let ends = pipes(&pair)
                .into_iter()
                .find(|&pipe| pair.case.arcs[pipe].from == node || pair.case.arcs[pipe].to == node);
            let Some(pipe) = ends else { continue };
            let others = left_33(&off, step, node);
            balance(&mut off, step, pipe, node);
            assert_eq!(left_33(&off, step, node), 0, "seed {seed}, node {node}");
            let span = pair.case.span(step);
            let moved = flow_at(&off, step, pipe, node) - flow_at(&pair, step, pipe, node);
            let most = twice_33(&pair, step, node, ALL) / span - 1;
            let own = left_33(&pair, step, node).abs() / span;
            assert!(moved.abs() <= most + own, "seed {seed}, node {node}");
            balanced += u64::from(others != 0);
        }
    }
    assert!(balanced > 500, "{balanced} nodes were off balance");
}

/// Errors of 1 in the pressures: 28 is at most dt/2, and a is off by what they store, by b's error and by 1/2.
#[test]
fn storage_comes_within_half_a_step() {
    let mut stored = 0;
    for seed in 0..PAIRS {
        let mut rng = Rng::new(seed);
        let pair = generate::accepted(&mut rng);
        let mut off = off_by_one(&mut rng, &pair, ALL);
        let step = pair.steps();
        let span = pair.case.span(step);
        for pipe in pipes(&pair) {
            let row = off.arc_mut(step, pipe);
            row.a = row.b;
            // Without a - b the left side of 28 is what the pressures take out.
            let change = -left_28(&off, step, pipe);
            let nearest = (2 * change + span).div_euclid(2 * span);
            off.arc_mut(step, pipe).a += nearest;
            let left = left_28(&off, step, pipe);
            assert!(2 * left.abs() <= span, "seed {seed}, pipe {pipe}");
            let moved = off.arc(step, pipe).a - pair.arc(step, pipe).a;
            let pressures = twice_28(&pair.case, step, pipe, ALL) - 2 * span;
            let own = left_28(&pair, step, pipe).abs();
            let most = 2 * (pressures + own) + 3 * span;
            assert!(2 * span * moved.abs() <= most, "seed {seed}, pipe {pipe}");
            stored += u64::from(change % span != 0 && pair.case.arcs[pipe].more[C] > 1);
        }
    }
    assert!(stored > 100, "{stored} pipes were rounded");
}
