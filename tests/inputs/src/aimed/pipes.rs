//! Aimed changes at pipes: 28 and 29, with E for 33 too.

use super::arcs::{find_arc, find_row};
use super::nodes::past;
use super::sides::{left_28, left_29, left_33};
use super::{Aimed, aimed, first_step};
use crate::model::{Arc, C, F, G, H, MOST_FLOW, MOST_PRESSURE, PIPE, Pair};
use crate::rng::Rng;

/// The least change of a flow that loses the balance of a pipe.
pub fn aim_28_flow(rng: &mut Rng, pair: &Pair) -> Option<Aimed> {
    let mut pair = pair.clone();
    let (step, arc) = find_arc(rng, &pair, |_, it| it.kind == PIPE)?;
    let left = left_28(&pair, step, arc);
    let more = past(rng, left, pair.case.span(step), pair.case.mass_tolerance);
    let row = pair.arc_mut(step, arc);
    if rng.flip() {
        row.a += more;
    } else {
        row.b -= more;
    }
    let most = row.a.abs().max(row.b.abs());
    pair.case.arcs[arc].qmax = pair.case.arcs[arc].qmax.max(most);
    (most <= MOST_FLOW).then(|| aimed(&pair, 28, step, arc))?
}

pub fn aim_28_storage(rng: &mut Rng, pair: &Pair) -> Option<Aimed> {
    let mut pair = pair.clone();
    let moves = |step: usize, it: &Arc| {
        let sum = |step: usize| pair.pressure(step, it.from) + pair.pressure(step, it.to);
        it.kind == PIPE && sum(step) != sum(step - 1)
    };
    let (_, arc) = find_arc(rng, &pair, moves)?;
    let storage = pair.case.arcs[arc].more[C];
    let tries = [
        storage + 1,
        storage - 1,
        storage / 2,
        rng.within(1..=100_000_000),
    ];
    for more in tries {
        pair.case.arcs[arc].more[C] = more.clamp(1, 100_000_000);
        let fails = |step| left_28(&pair, step, arc).abs() > pair.case.mass_tolerance;
        if let Some(first) = first_step(&pair, fails) {
            return aimed(&pair, 28, first, arc);
        }
    }
    None
}

/// The least change of p0 at an end of a pipe that loses its balance in step 1, which p0 comes before. An earlier pipe may lose its own by it.
pub fn aim_28_p0(rng: &mut Rng, pair: &Pair) -> Option<Aimed> {
    let mut pair = pair.clone();
    let (_, arc) = find_arc(rng, &pair, |step, it| step == 1 && it.kind == PIPE)?;
    let left = left_28(&pair, 1, arc);
    let pipe = &pair.case.arcs[arc];
    let more = past(rng, left, pipe.more[C], pair.case.mass_tolerance);
    let end = rng.pick(&[pipe.from, pipe.to])?;
    let p0 = &mut pair.case.nodes[end].p0;
    *p0 += more;
    if !(0..=MOST_PRESSURE).contains(p0) {
        return None;
    }
    let fails = |&arc: &usize| {
        pair.case.arcs[arc].kind == PIPE && left_28(&pair, 1, arc).abs() > pair.case.mass_tolerance
    };
    let first = (0..pair.case.arcs.len()).find(fails)?;
    aimed(&pair, 28, 1, first)
}

/// Lowers E to just below a left side of 28 or 33, and finds the first that is above it.
pub fn aim_28_33_tolerance(rng: &mut Rng, pair: &Pair) -> Option<Aimed> {
    let mut pair = pair.clone();
    let pipes: Vec<usize> = (0..pair.case.arcs.len())
        .filter(|&arc| pair.case.arcs[arc].kind == PIPE)
        .collect();
    let mut sides = Vec::new();
    for step in 1..=pair.steps() {
        sides.extend(
            pipes
                .iter()
                .map(|&it| (left_28(&pair, step, it), 28, step, it)),
        );
        let nodes = 0..pair.case.nodes.len();
        sides.extend(nodes.map(|it| (left_33(&pair, step, it), 33, step, it)));
    }
    let left: Vec<i64> = sides.iter().map(|side| side.0.abs()).collect();
    let above_0: Vec<i64> = left.into_iter().filter(|&left| left > 0).collect();
    pair.case.mass_tolerance = rng.pick(&above_0)? - 1;
    let over = |side: &&(i64, u8, usize, usize)| side.0.abs() > pair.case.mass_tolerance;
    let &(_, number, step, place) = sides.iter().find(over)?;
    aimed(&pair, number, step, place)
}

pub fn aim_29_friction(rng: &mut Rng, pair: &Pair) -> Option<Aimed> {
    let mut pair = pair.clone();
    let (_, arc) = find_arc(rng, &pair, |_, it| it.kind == PIPE)?;
    let field = [F, G, H][rng.below(3)];
    let most = if field == H { 200_000 } else { 10_000_000 };
    let least = if field == H { -most } else { 0 };
    let before = pair.case.arcs[arc].more[field];
    // Small changes first, so that sides just past H occur.
    let tries = [
        before + 1,
        before - 1,
        before + 100,
        before - 100,
        rng.within(least..=most),
        most,
    ];
    for more in tries {
        pair.case.arcs[arc].more[field] = more.clamp(least, most);
        let allowed = 1_000_000 * pair.case.pressure_tolerance;
        let fails = |step| left_29(&pair, step, arc).abs() > allowed;
        if let Some(first) = first_step(&pair, fails) {
            return aimed(&pair, 29, first, arc);
        }
    }
    None
}

/// Lowers H to just below a left side, and finds the first that is above it.
pub fn aim_29_tolerance(rng: &mut Rng, pair: &Pair) -> Option<Aimed> {
    let mut pair = pair.clone();
    let test =
        |step: usize, arc: usize, it: &Arc| it.kind == PIPE && left_29(&pair, step, arc) != 0;
    let (step, arc) = find_row(rng, &pair, test)?;
    pair.case.pressure_tolerance = (left_29(&pair, step, arc).abs() - 1) / 1_000_000;
    let allowed = 1_000_000 * pair.case.pressure_tolerance;
    for step in 1..=pair.steps() {
        let is_pipe = |arc: usize| pair.case.arcs[arc].kind == PIPE;
        let fails = |&arc: &usize| is_pipe(arc) && left_29(&pair, step, arc).abs() > allowed;
        if let Some(first) = (0..pair.case.arcs.len()).find(fails) {
            return aimed(&pair, 29, step, first);
        }
    }
    None
}
