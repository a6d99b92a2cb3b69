//! The questions 28 and 29 of a pipe in a step.

use gasplan_text::model::Plan;

use crate::amount::{MASS, Unit};
use crate::bound::Bound;
use crate::check::{Check, at_most, term, wide};

/// Pressure at a node in the step before and in the step.
fn pressures(plan: &Plan, step: usize, node: usize) -> [i64; 2] {
    [step.saturating_sub(1), step].map(|step| plan.pressure(step, node))
}

/// dt × (a - b) - c × (change of p at from + change at to) of a pipe, 0 of any other arc.
pub fn left_28(plan: &Plan, step: usize, index: usize) -> i128 {
    let Some([c, ..]) = plan.case.arcs[index].pipe() else {
        return 0;
    };
    let row = plan.arc(step, index);
    let brought = plan.case.span(step) * (wide(row.a) - wide(row.b));
    brought - wide(c) * change(plan, step, index)
}

/// Change of p at from and at to, together.
fn change(plan: &Plan, step: usize, index: usize) -> i128 {
    let arc = &plan.case.arcs[index];
    let at = |node| {
        let [before, after] = pressures(plan, step, node);
        wide(after) - wide(before)
    };
    at(arc.from) + at(arc.to)
}

/// A sum with its number, and its size where that is another.
fn sized(sum: String, left: i128) -> String {
    match left < 0 {
        true => format!("{sum} = {left}, its size {}", -left),
        false => format!("{sum} = {left}"),
    }
}

pub fn rule_28(plan: &Plan, step: usize, index: usize) -> Vec<Check> {
    let arc = &plan.case.arcs[index];
    let Some([c, ..]) = arc.pipe() else {
        return Vec::new();
    };
    let row = plan.arc(step, index);
    let (change, span) = (change(plan, step, index), plan.case.span(step));
    let left = left_28(plan, step, index);
    let tolerance = plan.case.mass_tolerance;
    let sum = format!(
        "{span} × ({} - {}) - {c} × {}",
        row.a,
        term(row.b),
        term(change)
    );
    let bound = format!("the mass tolerance {tolerance}");
    let [from_before, from] = pressures(plan, step, arc.from);
    let [to_before, to] = pressures(plan, step, arc.to);
    let stored = at_most(
        (&sized(sum, left), left.abs()),
        (&bound, wide(tolerance)),
        MASS,
    );
    let changes = format!(
        "change of p: {from} - {} at node {} and {to} - {} at node {}, together {change}",
        term(from_before),
        arc.from,
        term(to_before),
        arc.to
    );
    vec![stored.and(changes).margin(Bound::Stored)]
}

pub fn rule_29(plan: &Plan, step: usize, index: usize) -> Vec<Check> {
    let arc = &plan.case.arcs[index];
    let Some([_, f, g, h]) = arc.pipe() else {
        return Vec::new();
    };
    let row = plan.arc(step, index);
    let (from, to) = (plan.pressure(step, arc.from), plan.pressure(step, arc.to));
    let left = 1_000_000 * (wide(to) - wide(from))
        + wide(f) * wide(row.a)
        + wide(g) * wide(row.b)
        + wide(h) * (wide(from) + wide(to));
    let sum = format!(
        "1000000 × ({to} - {}) + {f} × {} + {g} × {} + {} × ({from} + {})",
        term(from),
        term(row.a),
        term(row.b),
        term(h),
        term(to)
    );
    let tolerance = plan.case.pressure_tolerance;
    let most = 1_000_000 * wide(tolerance);
    let bound = format!("1000000 × the pressure tolerance {tolerance} = {most}");
    let fits = at_most(
        (&sized(sum, left), left.abs()),
        (&bound, most),
        Unit::MillionthOfMbar,
    );
    vec![fits.margin(Bound::Friction)]
}
