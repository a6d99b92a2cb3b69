//! The ranges of a case's fields.

use gasplan_text::layout::{CaseLayout, Field, Part, fields};

use crate::node_rules::MOST_FLOW;

const MOST_PRESSURE: i64 = 200_000;
const MOST_WEIGHT: i64 = 1_000_000;
const MOST_SPAN: i64 = 86_400;
const SHORTCUT: i64 = 3;

/// The range of a field. A bound between two fields counts for the later one.
pub fn range(case: &[i64], place: usize, field: &Field) -> (i64, i64) {
    let back = |by: usize| place.checked_sub(by).map_or(0, |at| case[at]);
    match (field.part, field.name) {
        (Part::Head, name) => head_range(name),
        (Part::Times, _) => {
            let before = if field.step == Some(1) { 0 } else { back(1) };
            (before.saturating_add(1), before.saturating_add(MOST_SPAN))
        }
        (Part::Node(_), "kind") => (0, 2),
        (Part::Node(_), "actlow") => (back(2), MOST_PRESSURE),
        (Part::Node(_), "acthigh") => (back(1), back(2)),
        (Part::Node(_), "demand") => match back(5 + field.step.unwrap_or(1)) {
            0 => (0, 0),
            1 => (0, MOST_FLOW),
            _ => (-MOST_FLOW, 0),
        },
        (Part::Node(_), _) => (0, MOST_PRESSURE),
        (Part::Arc(_), name) => arc_range(case, name, back(5)),
        (Part::Station(_), name) => station_range(name, back(3)),
        (Part::State(station, _), "directions") => (0, all(directions(case, station))),
        (_, "entry" | "exit") => (0, all(60)),
        (_, "on" | "off") => (0, all(30)),
        (_, "flow") => (0, MOST_FLOW),
        (_, "ratio") => (1_001, 10_000),
        _ => (0, MOST_WEIGHT),
    }
}

/// The set of the first items.
fn all(count: i64) -> i64 {
    (1 << count.clamp(0, 62)) - 1
}

fn head_range(name: &str) -> (i64, i64) {
    match name {
        "edition" => (1, 1),
        "nodes" => (1, 60),
        "arcs" => (0, 120),
        "stations" => (0, 8),
        "steps" => (1, 48),
        "mass-tolerance" => (0, 1_000_000),
        _ => (0, 1_000),
    }
}

/// The kind stands five fields before the both-ways field, where alone it matters here.
fn arc_range(case: &[i64], name: &str, kind: i64) -> (i64, i64) {
    let last = |at: usize| case.get(at).map_or(0, |count| count - 1);
    match name {
        "kind" => (0, 6),
        "from" | "to" => (0, last(1)),
        "c" => (1, 100_000_000),
        "qmax" | "f" | "g" => (0, MOST_FLOW),
        "h" => (-200_000, 200_000),
        "station" => (0, last(3)),
        "both-ways" if kind == SHORTCUT => (1, 1),
        "both-ways" | "active-at-0" => (0, 1),
        "weight" => (0, MOST_WEIGHT),
        "machines" => (0, all(12)),
        "most-machines" => (0, 12),
        "out-bound" => (0, MOST_PRESSURE),
        _ => (0, 0),
    }
}

/// Directions and states stand three fields before those of step 0.
fn station_range(name: &str, count: i64) -> (i64, i64) {
    match name {
        "directions" => (1, 8),
        "states" => (1, 16),
        "machines" => (0, 12),
        _ => (0, count - 1),
    }
}

/// How many directions a station says that it has.
fn directions(case: &[i64], station: usize) -> i64 {
    let found = fields(&mut CaseLayout::default(), case);
    let is_it = |field: &Field| field.part == Part::Station(station) && field.name == "directions";
    found.iter().position(is_it).map_or(0, |at| case[at])
}
