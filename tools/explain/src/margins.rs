//! What is left of every bound that an accepted plan keeps.

use std::collections::BTreeMap;

use gasplan_text::model::Plan;

use crate::bound::Bound;
use crate::check::Margin;
use crate::questions::{checks_of_item, of_plan};

/// An item and a step, and what is left of a bound there.
#[derive(Clone, Debug)]
pub struct Kept {
    pub step: usize,
    pub place: usize,
    pub margin: Margin,
}

/// The items that keep each bound, the tightest first; bounds in the order of the document.
pub fn margins(plan: &Plan) -> BTreeMap<Bound, Vec<Kept>> {
    let mut found: BTreeMap<Bound, Vec<Kept>> = BTreeMap::new();
    for question in of_plan(plan.case) {
        let (step, place) = (question.step, question.place);
        let checks = checks_of_item(plan, question.number, step, place);
        for margin in checks.into_iter().filter_map(|check| check.margin) {
            let items = found.entry(margin.bound).or_default();
            keep(
                items,
                Kept {
                    step,
                    place,
                    margin,
                },
            );
        }
    }
    for items in found.values_mut() {
        items.sort_by_key(|item| item.margin.left.count);
    }
    found
}

/// Of an item that has the bound twice, as a pipe's a and b, the tighter one counts.
fn keep(items: &mut Vec<Kept>, kept: Kept) {
    match items.last_mut() {
        Some(last) if (last.step, last.place) == (kept.step, kept.place) => {
            if kept.margin.left.count < last.margin.left.count {
                *last = kept;
            }
        }
        _ => items.push(kept),
    }
}
