//! A list into text.

use crate::layout::{CaseLayout, Counts, Field, Form, Layout, Part, PlanLayout};
use crate::model::Case;
use crate::parse::{CUT_SHORT, LEFT_OVER};
use crate::words;

/// Comments start in this column, where the field leaves room.
const COMMENT: usize = 28;

/// A list as numbers without parts.
pub fn numbers(list: &[i64]) -> String {
    let mut text = String::from("numbers\n");
    for number in list {
        text.push_str(&format!("{number}\n"));
    }
    text
}

/// A case list as text.
pub fn case(list: &[i64]) -> String {
    let mut text = String::from("case\n");
    let case = Case::of(list);
    let heading = |at: usize, field: &Field| case_heading(&list[at..], field);
    let comment = |field: &Field, number| case_comment(case.as_ref(), field, number);
    put(
        &mut text,
        list,
        &mut CaseLayout::default(),
        heading,
        comment,
    );
    text
}

/// A plan list as text, with its rows and comments by the case list that it belongs to.
pub fn plan(list: &[i64], case_list: &[i64]) -> String {
    let counts = Counts::of_case(case_list);
    let case = Case::of(case_list);
    let mut text = format!(
        "plan {} nodes {} arcs {} stations\n",
        counts.nodes, counts.arcs, counts.stations
    );
    let heading = |_: usize, field: &Field| plan_heading(case.as_ref(), field);
    let comment = |field: &Field, number| setting_comment(case.as_ref(), field, number);
    put(
        &mut text,
        list,
        &mut PlanLayout::new(counts),
        heading,
        comment,
    );
    text
}

/// A meter's record as text, a row a line.
pub fn meter(list: &[i64]) -> String {
    let mut text = String::from("meter\n");
    if !list.is_empty() {
        text.push_str("\n# the end of each interval in s, the mass in it in g\n");
    }
    let width = |field| {
        let numbers = list.iter().skip(field).step_by(2);
        numbers.map(|it| it.to_string().len()).max().unwrap_or(0)
    };
    let (times, masses) = (width(0), width(1));
    for (row, numbers) in list.chunks(2).enumerate() {
        text.push_str(&match numbers {
            [time, grams] => format!("time {time:times$}  grams {grams:masses$}  # row {row}\n"),
            _ => format!(
                "time {:times$}\n{CUT_SHORT} # before grams of row {row}\n",
                numbers[0]
            ),
        });
    }
    text
}

/// Every number as a line: headings before each part, comments beside.
fn put(
    text: &mut String,
    list: &[i64],
    layout: &mut dyn Layout,
    heading: impl Fn(usize, &Field) -> String,
    comment: impl Fn(&Field, i64) -> Option<String>,
) {
    let mut last = None;
    for (at, &number) in list.iter().enumerate() {
        let Some(due) = layout.due() else {
            left_over(text, &list[at..]);
            return;
        };
        // A case's demands belong to its node; a plan has a part for each step.
        let group = (due.part, due.step.filter(|_| !in_case(&due)));
        if last != Some(group) {
            text.push_str(&format!("\n# {}\n", heading(at, &due)));
        }
        last = Some(group);
        put_field(text, &due, number, comment(&due, number));
        layout.take(number);
    }
    if let Some(due) = layout.due() {
        text.push_str(&format!("{CUT_SHORT} # before {due}\n"));
    }
}

fn in_case(field: &Field) -> bool {
    matches!(field.name, "time" | "demand")
}

fn left_over(text: &mut String, numbers: &[i64]) {
    text.push_str(&format!("\n{LEFT_OVER} # no field is due for these\n"));
    for number in numbers {
        text.push_str(&format!("{number}\n"));
    }
}

fn put_field(text: &mut String, field: &Field, number: i64, comment: Option<String>) {
    let start = format!("{} {}", field.name, value(field, number));
    let step = in_case(field).then_some(field.step).flatten();
    let step = step.map(|step| format!("step {step}"));
    let unit = field.unit().map(str::to_string);
    let comments: Vec<String> = [unit, step, comment].into_iter().flatten().collect();
    match comments.is_empty() {
        true => text.push_str(&start),
        false => text.push_str(&format!("{start:COMMENT$}# {}", comments.join(", "))),
    }
    text.push('\n');
}

/// The number as people write it.
fn value(field: &Field, number: i64) -> String {
    match (field.form, words::word(field.form, number)) {
        (_, Some(word)) => word.to_string(),
        (Form::Set, None) => words::set(number),
        (_, None) => number.to_string(),
    }
}

/// What the comment before a part of a case says; the list starts at the part.
fn case_heading(list: &[i64], field: &Field) -> String {
    let at = |at: usize| list.get(at).copied();
    match (field.part, at(0)) {
        (Part::Times, _) => "times: the end of each step".to_string(),
        (Part::Node(_), Some(kind)) => format!("{}: {}", field.part, words::node_kind(kind)),
        (Part::Arc(arc), Some(kind)) => match (at(1), at(2)) {
            (Some(from), Some(to)) => {
                format!(
                    "arc {arc}: {} from node {from} to node {to}",
                    words::arc_kind(kind)
                )
            }
            _ => field.part.to_string(),
        },
        (part, _) => part.to_string(),
    }
}

fn case_comment(case: Option<&Case>, field: &Field, number: i64) -> Option<String> {
    match (field.name, number) {
        ("out-bound", 0) => Some("0 stands for acthigh of the out end".to_string()),
        _ => arcs_comment(case, field, number),
    }
}

/// A state's sets count the station's own arcs; the comment has the arcs of the case.
fn arcs_comment(case: Option<&Case>, field: &Field, number: i64) -> Option<String> {
    let (Some(case), Part::State(station, _), "on" | "off") = (case, field.part, field.name) else {
        return None;
    };
    let arcs = case.station_arcs(station);
    let named: Vec<String> = words::items(number)
        .into_iter()
        .filter_map(|item| arcs.get(item))
        .map(|arc| format!("arc {arc}"))
        .collect();
    (!named.is_empty()).then(|| named.join(", "))
}

fn plan_heading(case: Option<&Case>, field: &Field) -> String {
    let (Some(case), Some(step)) = (case, field.step) else {
        return field.address_of_part();
    };
    let time = match field.part {
        Part::Node(0) => format!(" ({})", case.span_words(step)),
        _ => String::new(),
    };
    let item = match field.part {
        Part::Node(node) => case.node_words(node),
        Part::Arc(arc) => case.arc_words(arc),
        part => part.to_string(),
    };
    format!("step {step}{time}, {item}")
}

fn setting_comment(case: Option<&Case>, field: &Field, number: i64) -> Option<String> {
    match (case, field.part, field.name) {
        (Some(case), Part::Arc(arc), "setting") => {
            let kind = case.arcs.get(arc)?.kind;
            let words = words::setting(kind, number);
            (!words.is_empty()).then(|| words.to_string())
        }
        _ => None,
    }
}
