//! What rounding can add to 28, 29 and 33, and take from 26, is reached, so no lower bound holds.

use std::collections::BTreeSet;

use inputs::aimed::sides::{left_28, left_29, left_33};
use inputs::model::{PIPE, Pair};
use inputs::reach::{overreach, ratio};
use inputs::rounding::bounds::{Rounded, flows, is_short, twice_26, twice_28, twice_29, twice_33};
use inputs::rounding::errors::off_by_one;
use inputs::rounding::example::{
    A_MBAR_LEFT, AT_THE_REACH, Solution, UNIT, WITH_ROOM, in_thousandths, judged,
};
use inputs::{Rng, generate};

const PAIRS: u64 = 300;
const ALL: Rounded = Rounded::FlowsAndPressures;

/// The step and the arc at which the example comes to its machine's reach.
const STATION: (usize, usize) = (2, 1);

/// 1 or -1: the side to which a left side grows.
fn side(left: i64) -> i64 {
    if left < 0 { -1 } else { 1 }
}

/// Both pressures of a compressing arc off by 1, to the side where less is left.
fn lean_26(pair: &mut Pair, step: usize, arc: usize) {
    let (in_end, out_end) = pair.ends(step, arc);
    pair.node_mut(step, in_end).p -= 1;
    pair.node_mut(step, out_end).p += 1;
}

/// Every number of the pipe's 28 off by 1, to the side where its left side grows.
fn lean_28(pair: &mut Pair, step: usize, arc: usize) {
    let by = side(left_28(pair, step, arc));
    for node in [pair.case.arcs[arc].from, pair.case.arcs[arc].to] {
        pair.node_mut(step, node).p -= by;
        if step > 1 {
            pair.node_mut(step - 1, node).p += by;
        }
    }
    let row = pair.arc_mut(step, arc);
    (row.a, row.b) = (row.a + by, row.b - by);
}

fn lean_29(pair: &mut Pair, step: usize, arc: usize) {
    let by = side(left_29(pair, step, arc));
    let (from, to) = (pair.case.arcs[arc].from, pair.case.arcs[arc].to);
    pair.node_mut(step, from).p -= by;
    pair.node_mut(step, to).p += by;
    let row = pair.arc_mut(step, arc);
    (row.a, row.b) = (row.a + by, row.b + by);
}

fn lean_33(pair: &mut Pair, step: usize, node: usize) {
    let by = side(left_33(pair, step, node));
    for arc in 0..pair.case.arcs.len() {
        let [a, b] = flows(pair, step, arc).map(i64::from);
        let ends = &pair.case.arcs[arc];
        let (leaves, arrives) = (ends.from == node, ends.to == node);
        let (at_from, at_to) = match (leaves, arrives, ends.kind == PIPE) {
            (true, _, true) => (by, 0),
            (_, true, true) => (0, -by),
            (true, _, false) => (by, -by),
            (_, true, false) => (-by, by),
            _ => (0, 0),
        };
        let row = pair.arc_mut(step, arc);
        (row.a, row.b) = (row.a + a * at_from, row.b + b * at_to);
    }
    if is_short(pair, step, node) {
        pair.node_mut(step, node).d -= by;
    }
}

#[test]
fn every_bound_is_reached() {
    let (mut pipes, mut nodes) = (0, 0);
    for seed in 0..PAIRS {
        let pair = generate::accepted(&mut Rng::new(seed));
        let step = pair.steps();
        for arc in (0..pair.case.arcs.len()).filter(|&arc| pair.case.arcs[arc].kind == PIPE) {
            let mut off = pair.clone();
            lean_28(&mut off, step, arc);
            let most = left_28(&pair, step, arc).abs() + twice_28(&pair.case, step, arc, ALL);
            assert_eq!(left_28(&off, step, arc).abs(), most, "28: {seed} {arc}");
            let mut off = pair.clone();
            lean_29(&mut off, step, arc);
            let most = left_29(&pair, step, arc).abs() + twice_29(&pair.case, arc, ALL);
            assert_eq!(left_29(&off, step, arc).abs(), most, "29: {seed} {arc}");
            pipes += 1;
        }
        for node in 0..pair.case.nodes.len() {
            let mut off = pair.clone();
            lean_33(&mut off, step, node);
            let most = left_33(&pair, step, node).abs() + twice_33(&pair, step, node, ALL);
            assert_eq!(left_33(&off, step, node).abs(), most, "33: {seed} {node}");
            nodes += 1;
        }
    }
    assert!(pipes > 500 && nodes > 500, "{pipes} pipes, {nodes} nodes");
}

#[test]
fn the_bound_at_26_is_reached() {
    let mut compressing = 0;
    for seed in 0..PAIRS {
        let pair = generate::accepted(&mut Rng::new(seed));
        let arcs = 0..pair.case.arcs.len();
        compressing += arcs.filter_map(|arc| leaned_26(&pair, arc)).count();
    }
    assert!(compressing > 200, "{compressing} arcs");
}

/// The arc in the last step, if it compresses: off by 1 at both ends it loses just the bound.
fn leaned_26(pair: &Pair, arc: usize) -> Option<()> {
    let step = pair.steps();
    let most = overreach(pair, step, arc)? + twice_26(pair, step, arc);
    let mut off = pair.clone();
    lean_26(&mut off, step, arc);
    assert_eq!(overreach(&off, step, arc), Some(most), "arc {arc}");
    Some(())
}

/// The machine reaches the out pressure from 1 mbar less, and no more: of all errors only in - 1 with out + 1 would go past the reach.
#[test]
fn errors_of_both_pressures_stay_within_the_reach() {
    let (step, arc) = STATION;
    let mut pair = judged(&WITH_ROOM);
    let (in_end, out_end) = pair.ends(step, arc);
    let lower = pair.node(step, in_end).p - 1;
    pair.node_mut(step, out_end).p = lower * ratio(&pair, step, arc) / UNIT;
    let mut errors = BTreeSet::new();
    for seed in 0..PAIRS {
        let off = off_by_one(&mut Rng::new(seed), &pair, ALL);
        errors
            .insert([in_end, out_end].map(|node| off.node(step, node).p - pair.node(step, node).p));
    }
    let all = [-1, 0, 1].map(|p_in| [-1, 0, 1].map(|out| [p_in, out]));
    let within = all.into_iter().flatten().filter(|it| *it != [-1, 1]);
    assert_eq!(errors, within.collect());
}

/// At the example's station nothing is left, a mbar and more than rounding can take; in the plan 26 is lost, lost and kept.
#[test]
fn what_the_examples_solutions_leave_at_26() {
    let left = |solution: &Solution| {
        let step = STATION.0;
        let [exact, whole] = [in_thousandths(solution), judged(solution)];
        let needed = twice_26(&whole, step, STATION.1) * UNIT / 2;
        let [exact, whole] = [exact, whole].map(|pair| overreach(&pair, step, STATION.1));
        (exact.map(|over| -over), whole.map(|over| -over), needed)
    };
    assert_eq!(left(&AT_THE_REACH), (Some(0), Some(-960), 1_060_000));
    assert_eq!(left(&A_MBAR_LEFT), (Some(1_000_880), Some(-40), 1_060_000));
    assert_eq!(
        left(&WITH_ROOM),
        (Some(15_635_240), Some(15_000), 1_060_000)
    );
}

/// What is rounded in the example meets 28, 29 and 33 exactly.
#[test]
fn the_examples_solutions_are_exact() {
    for solution in [WITH_ROOM, A_MBAR_LEFT, AT_THE_REACH] {
        let pair = in_thousandths(&solution);
        for step in 1..=pair.steps() {
            for arc in [0, 2] {
                assert_eq!(left_28(&pair, step, arc), 0, "28 at {arc} in {step}");
                assert_eq!(left_29(&pair, step, arc), 0, "29 at {arc} in {step}");
            }
            for node in 0..pair.case.nodes.len() {
                assert_eq!(left_33(&pair, step, node), 0, "33 at {node} in {step}");
            }
        }
    }
}
