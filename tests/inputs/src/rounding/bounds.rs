//! What rounding can add to the left sides of 28, 29 and 33, and take from what is left at 26.
//!
//! Numbers rounded to the nearest are off by 1/2 at most. Here they are off by 1, so that everything is twice
//! the bound of docs/OPTIMISERS.md, and whole.

use crate::aimed::sides::{left_28, left_29, left_33};
use crate::model::{
    C, Case, F, G, MOST_MASS_TOLERANCE, MOST_PRESSURE_TOLERANCE, PIPE, Pair, REGULATOR, VALVE,
    is_backward,
};
use crate::reach::ratio;

const MILLION: i64 = 1_000_000;

/// Which numbers of a plan are rounded.
#[derive(Clone, Copy, Debug, PartialEq, Eq)]
pub enum Rounded {
    FlowsAndPressures,
    Flows,
    Nothing,
}

impl Rounded {
    /// 1 or 0, for flows and for pressures.
    fn parts(self) -> [i64; 2] {
        match self {
            Rounded::FlowsAndPressures => [1, 1],
            Rounded::Flows => [1, 0],
            Rounded::Nothing => [0, 0],
        }
    }
}

/// Thousandths of a mbar: the out pressure, and the in pressure times the ratio.
pub fn twice_26(pair: &Pair, step: usize, arc: usize) -> i64 {
    1_000 + ratio(pair, step, arc)
}

/// a and b over the step, and the pressures of both ends, now and before; p0 is whole.
pub fn twice_28(case: &Case, step: usize, arc: usize, rounded: Rounded) -> i64 {
    let [flows, pressures] = rounded.parts();
    let times = if step == 1 { 1 } else { 2 };
    flows * 2 * case.span(step) + pressures * 2 * times * case.arcs[arc].more[C]
}

/// f of a, g of b, and 1,000,000 + h of to with 1,000,000 - h of from, which is 2,000,000 whatever h is.
pub fn twice_29(case: &Case, arc: usize, rounded: Rounded) -> i64 {
    let more = case.arcs[arc].more;
    let [flows, pressures] = rounded.parts();
    flows * (more[F] + more[G]) + pressures * 2 * MILLION
}

/// Each rounded number of the node's balance, over the step.
pub fn twice_33(pair: &Pair, step: usize, node: usize, rounded: Rounded) -> i64 {
    let ends = pair.case.arcs.iter().enumerate().map(|(index, arc)| {
        let [a, b] = flows(pair, step, index).map(i64::from);
        match (arc.from == node, arc.to == node, arc.kind == PIPE) {
            (false, false, _) => 0,
            (true, _, true) => a,
            (_, _, true) => b,
            _ => a + b,
        }
    });
    let boundary = i64::from(is_short(pair, step, node));
    let [flows, _] = rounded.parts();
    flows * pair.case.span(step) * (ends.sum::<i64>() + boundary)
}

/// Can the arc's a and b be other than 0, under 24 and 25?
pub fn flows(pair: &Pair, step: usize, arc: usize) -> [bool; 2] {
    let setting = pair.arc(step, arc).setting;
    match pair.case.arcs[arc].kind {
        PIPE => [true, true],
        REGULATOR => [true, false],
        VALVE => [setting == 1; 2],
        _ => [setting > 0 && !is_backward(setting), is_backward(setting)],
    }
}

/// Has the node a demand slack? If it has none, d is the demand, and whole.
pub fn is_short(pair: &Pair, step: usize, node: usize) -> bool {
    let row = pair.node(step, node);
    row.s_plus + row.s_minus > 0
}

/// Tolerances for the plan with each number off by 1; none where a case cannot have them.
pub fn twice_covered(pair: &Pair, rounded: Rounded) -> Option<(i64, i64)> {
    let (mut mass, mut pressure) = (0, 0);
    for step in 1..=pair.steps() {
        for arc in (0..pair.case.arcs.len()).filter(|&arc| pair.case.arcs[arc].kind == PIPE) {
            let stored = left_28(pair, step, arc).abs();
            mass = mass.max(stored + twice_28(&pair.case, step, arc, rounded));
            let drop = left_29(pair, step, arc).abs();
            pressure = pressure.max(drop + twice_29(&pair.case, arc, rounded));
        }
        for node in 0..pair.case.nodes.len() {
            let balance = left_33(pair, step, node).abs();
            mass = mass.max(balance + twice_33(pair, step, node, rounded));
        }
    }
    let pressure = (pressure + MILLION - 1) / MILLION;
    let within = mass <= MOST_MASS_TOLERANCE && pressure <= MOST_PRESSURE_TOLERANCE;
    within.then_some((mass, pressure))
}
