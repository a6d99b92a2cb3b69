//! The questions of items, in the order of the document, and the parts of each.

use gasplan::Refusal;
use gasplan_text::model::{Case, Plan};

use crate::check::{Check, at_least, at_most, check, wide};
use crate::explanation::Region;
use crate::{amount::Unit, arc_rules, case_rules, node_rules, pipe_rules, station_rules};

/// The parts of a question about an item of the case (13 to 17) or of a step (21 to 33).
pub fn checks_of_item(plan: &Plan, number: i64, step: usize, place: usize) -> Vec<Check> {
    match number {
        13 => case_rules::rule_13(plan.case, place),
        14 => case_rules::rule_14(plan.case, place),
        15 => case_rules::rule_15(plan.case, place),
        16 => case_rules::rule_16(plan.case, place),
        17 => case_rules::rule_17(plan.case, place),
        21 => node_rules::rule_21(plan, step, place),
        22 => node_rules::rule_22(plan, step, place),
        23 => node_rules::rule_23(plan, step, place),
        24 => arc_rules::rule_24(plan, step, place),
        25 => arc_rules::rule_25(plan, step, place),
        26 => arc_rules::rule_26(plan, step, place),
        27 => arc_rules::rule_27(plan, step, place),
        28 => pipe_rules::rule_28(plan, step, place),
        29 => pipe_rules::rule_29(plan, step, place),
        30 => station_rules::rule_30(plan, step, place),
        31 => station_rules::rule_31(plan, step, place),
        32 => station_rules::rule_32(plan, step, place),
        33 => node_rules::rule_33(plan, step, place),
        _ => Vec::new(),
    }
}

/// 40 of the ledger's set and 41 of its steps.
pub fn checks_of_region(case: &Case, number: i64, region: Region) -> Vec<Check> {
    let Region { set, s, t } = region;
    let (nodes, steps) = (case.nodes.len(), case.steps());
    if number == 40 {
        let text = match (0..1 << 60).contains(&set) {
            true => format!(
                "the set names node {}; the case's last node is {}",
                stranger(case, set),
                nodes - 1
            ),
            false => format!("the set is the number {set}, outside 0 to 2^60 - 1"),
        };
        return vec![check(set >= 0 && set >> nodes == 0, text)];
    }
    let step = Unit::Thing("step");
    let (s_words, t_words, k_words) = (
        format!("s = {s}"),
        format!("t = {t}"),
        format!("the last step k = {steps}"),
    );
    let (s, t, k) = (
        (s_words.as_str(), wide(s)),
        (t_words.as_str(), wide(t)),
        (k_words.as_str(), steps as i128),
    );
    vec![
        at_least(s, ("0", 0), step),
        at_most(s, t, step),
        at_most(t, k, step),
    ]
}

/// The lowest item of the set that is no node, 0 where the number is outside 0 to 2^60 - 1.
pub fn stranger(case: &Case, set: i64) -> usize {
    let strangers = set >> case.nodes.len() << case.nodes.len();
    match (0..1 << 60).contains(&set) {
        true => strangers.trailing_zeros() as usize,
        false => 0,
    }
}

fn refusal(number: i64, step: usize, place: usize) -> Refusal {
    Refusal {
        number,
        step,
        place,
    }
}

/// 13 to 17, one after the other, each of all arcs, nodes or stations.
pub fn of_case(case: &Case) -> Vec<Refusal> {
    let mut asked = Vec::new();
    for number in 13..=17 {
        let items = match number {
            13 => case.arcs.len(),
            14 => case.nodes.len(),
            _ => case.stations.len(),
        };
        asked.extend((0..items).map(|place| refusal(number, 0, place)));
    }
    asked
}

/// 21 to 33 of all steps: nodes, arcs, stations, and nodes again; each item meets every question of its group.
pub fn of_plan(case: &Case) -> Vec<Refusal> {
    let groups = [
        (21..=23, case.nodes.len()),
        (24..=29, case.arcs.len()),
        (30..=32, case.stations.len()),
        (33..=33, case.nodes.len()),
    ];
    let mut asked = Vec::new();
    for step in 1..=case.steps() {
        for (numbers, items) in &groups {
            for place in 0..*items {
                let numbers = numbers.clone();
                asked.extend(numbers.map(|number| refusal(number, step, place)));
            }
        }
    }
    asked
}
