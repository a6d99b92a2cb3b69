//! The questions 10 to 12 of a case's fields, and 20 of a plan's head and length.

use gasplan_text::layout::{CaseLayout, Counts, Field, Form, Layout, Part, due_after};
use gasplan_text::words;

use crate::amount::Unit;
use crate::check::{Check, check, same, within};
use crate::ranges::range;

/// The part of the case that a number belongs to.
pub fn part_of(case: &[i64], place: usize) -> Option<Part> {
    due_at(case, place).map(|field| field.part)
}

/// The field that is due at a place.
fn due_at(case: &[i64], place: usize) -> Option<Field> {
    due_after(&mut CaseLayout::default(), case.get(..place)?)
}

pub fn rule_10(case: &[i64], place: usize) -> Vec<Check> {
    let due = due_at(case, place).map_or("nothing".to_string(), |field| field.to_string());
    vec![check(
        case.len() > place,
        format!(
            "the case has {} numbers; {due} is due as number {place}",
            case.len()
        ),
    )]
}

pub fn rule_11(case: &[i64], place: usize) -> Vec<Check> {
    match (due_at(case, place), case.get(place)) {
        (Some(field), Some(&number)) => vec![in_range(case, place, &field, number)],
        _ => Vec::new(),
    }
}

fn in_range(case: &[i64], place: usize, field: &Field, number: i64) -> Check {
    let (least, most) = range(case, place, field);
    let name = field.to_string();
    if field.form == Form::Set && number > most {
        let last = i64::from(most.count_ones()) - 1;
        let set = words::set(number);
        return check(false, format!("{name} = {set}: its items go up to {last}"));
    }
    within(&name, number, least, most, field.unit().map(Unit::Of))
}

pub fn rule_12(case: &[i64], place: usize) -> Vec<Check> {
    let number = case.get(place).copied().unwrap_or(0);
    vec![check(
        case.len() <= place,
        format!(
            "the case is whole after {place} numbers and has {}; number {place} is {number}",
            case.len()
        ),
    )]
}

/// Where 10 to 12 have a "no", in list order, and what is not asked because of it.
#[derive(Default)]
pub struct FieldNoes {
    /// Number and place of each.
    pub noes: Vec<(i64, usize)>,
    pub left_out: Vec<String>,
    /// Does a field out of its range leave open which fields follow?
    pub leaves_open: bool,
}

/// Asks 10 to 12 of the list, as long as it is clear which field stands where.
pub fn field_noes(case: &[i64]) -> FieldNoes {
    let mut found = FieldNoes::default();
    let mut layout = CaseLayout::default();
    let mut kind_unknown = None;
    for (place, &number) in case.iter().enumerate() {
        let Some(field) = layout.due() else {
            found.noes.push((12, place));
            return found;
        };
        layout.take(number);
        let of_unknown_kind = field.name == "demand" && kind_unknown == Some(field.part);
        if of_unknown_kind || in_range(case, place, &field, number).holds {
            continue;
        }
        found.noes.push((11, place));
        if decides_what_follows(&field) {
            let why = format!("{field} = {number} says which fields follow");
            found.left_out.push(format!(
                "10 to 12 of the numbers after number {place}: {why}"
            ));
            found.leaves_open = true;
            return found;
        }
        if field.name == "kind" {
            kind_unknown = Some(field.part);
            let part = field.part;
            found.left_out.push(format!(
                "11 of the demands of {part}: their range goes by its kind, {number}"
            ));
        }
    }
    if layout.due().is_some() {
        found.noes.push((10, case.len()));
    }
    found
}

/// Is it this field that says how many rows follow, or what an arc's fields are?
fn decides_what_follows(field: &Field) -> bool {
    match field.part {
        Part::Head => !field.name.ends_with("tolerance"),
        Part::Arc(_) => field.name == "kind",
        Part::Station(_) => !field.name.ends_with("at-0"),
        _ => false,
    }
}

pub fn rule_20(case: &[i64], plan: &[i64]) -> Vec<Check> {
    let counts = Counts::of_case(case);
    let steps = case.get(4).copied().unwrap_or(0);
    let (first, second) = (plan.first(), plan.get(1));
    let says = |number: Option<&i64>| number.map_or("missing".to_string(), i64::to_string);
    let due = 2 + usize::try_from(steps)
        .unwrap_or(0)
        .saturating_mul(counts.width());
    let length = format!("the plan has {} numbers", plan.len());
    let wanted = format!(
        "2 + {steps} × (6 × {} + 4 × {} + 2 × {}) = {due}",
        counts.nodes, counts.arcs, counts.stations
    );
    vec![
        check(
            first == Some(&1),
            format!("the first number is {}, not 1", says(first)),
        ),
        check(
            second == Some(&steps),
            format!(
                "the second number is {}, not the case's steps {steps}",
                says(second)
            ),
        ),
        same(
            (&length, plan.len() as i128),
            (&wanted, due as i128),
            Unit::Thing("number"),
        ),
    ]
}
