//! From a refusal to the item, the step and the numbers of the failed question.

use gasplan::Refusal;
use gasplan_text::files::File;
use gasplan_text::layout::Part;
use gasplan_text::model::{Case, Plan};

use crate::check::Check;
use crate::input::{Input, Lists};
use crate::questions::{checks_of_item, checks_of_region};
use crate::rules::rule_of;
use crate::{byte_rules, field_rules};

/// What the ledger is asked for.
#[derive(Clone, Copy, Debug)]
pub struct Region {
    pub set: i64,
    pub s: i64,
    pub t: i64,
}

/// An item to mark in a picture.
#[derive(Clone, Copy, Debug, PartialEq, Eq)]
pub enum Mark {
    Node(usize),
    Arc(usize),
    Station(usize),
}

pub struct Explanation {
    pub refusal: Refusal,
    /// Kind, number and ends of the item, with the step and its time.
    pub item: String,
    /// The parts that fail, each with both sides.
    pub findings: Vec<String>,
    pub mark: Option<Mark>,
}

/// Explains a "no". The region is that of a ledger, where one was asked for.
pub fn explain_refusal(input: &Input, refusal: Refusal, region: Option<Region>) -> Explanation {
    explain(input, &input.lists(), refusal, region)
}

/// The same, where the lists are read already.
pub fn explain(
    input: &Input,
    lists: &Lists,
    refusal: Refusal,
    region: Option<Region>,
) -> Explanation {
    let (item, mark, checks) = match refusal.number {
        1..=7 => of_bytes(input, lists, refusal),
        10..=12 => of_field(&lists.case_list, refusal),
        20 => {
            let checks = field_rules::rule_20(&lists.case_list, &lists.plan_list);
            ("plan".to_string(), None, checks)
        }
        _ => match &lists.case {
            Some(case) => of_item(case, &lists.plan_list, refusal, region),
            None => ("case".to_string(), None, Vec::new()),
        },
    };
    let wrong = checks.into_iter().filter(|check| !check.holds);
    let finding = |check: Check| match check.more {
        Some(more) => format!("{}\n{more}", check.text),
        None => check.text,
    };
    Explanation {
        refusal,
        item,
        findings: wrong.map(finding).collect(),
        mark,
    }
}

type Answer = (String, Option<Mark>, Vec<Check>);

fn of_bytes(input: &Input, lists: &Lists, refusal: Refusal) -> Answer {
    let file = File::of_refusal(refusal.number);
    let (place, checks) = match refusal.number {
        1 | 2 | 5 | 6 => byte_rules::unread(input.bytes(file), file, lists, refusal),
        _ => (format!("byte {}", refusal.place), Vec::new()),
    };
    (format!("{}.bin, {place}", file.name()), None, checks)
}

fn of_field(case: &[i64], refusal: Refusal) -> Answer {
    let place = refusal.place;
    let checks = match refusal.number {
        10 => field_rules::rule_10(case, place),
        11 => field_rules::rule_11(case, place),
        _ => field_rules::rule_12(case, place),
    };
    let part = field_rules::part_of(case, place);
    let mark = match part {
        Some(Part::Node(node)) => Some(Mark::Node(node)),
        Some(Part::Arc(arc)) => Some(Mark::Arc(arc)),
        Some(
            Part::Station(station)
            | Part::Direction(station, _)
            | Part::State(station, _)
            | Part::Machine(station, _),
        ) => Some(Mark::Station(station)),
        _ => None,
    };
    (format!("case, number {place}"), mark, checks)
}

/// A question of an item of the case, of the plan or of the ledger.
fn of_item(case: &Case, plan_list: &[i64], refusal: Refusal, region: Option<Region>) -> Answer {
    let Refusal {
        number,
        step,
        place,
    } = refusal;
    let mark = match number {
        13 | 24..=29 if place < case.arcs.len() => Mark::Arc(place),
        14 | 21..=23 | 33 if place < case.nodes.len() => Mark::Node(place),
        15..=17 | 30..=32 if place < case.stations.len() => Mark::Station(place),
        40 | 41 => {
            let checks = region.map(|region| checks_of_region(case, number, region));
            return ("ledger".to_string(), None, checks.unwrap_or_default());
        }
        _ => return (format!("item {place}"), None, Vec::new()),
    };
    let words = item_words(case, number, place);
    let item = match step {
        0 => words,
        _ => format!("{words}, step {step}, {}", case.span_words(step)),
    };
    let plan = Plan::new(case, plan_list);
    (item, Some(mark), checks_of_item(&plan, number, step, place))
}

/// The arc, node or station that a question is asked of.
pub fn item_words(case: &Case, number: i64, place: usize) -> String {
    match number {
        13 | 24..=29 => case.arc_words(place),
        14 | 21..=23 | 33 => case.node_words(place),
        _ => station_words(case, place),
    }
}

fn station_words(case: &Case, station: usize) -> String {
    let arcs = case.station_arcs(station);
    match arcs.is_empty() {
        true => format!("station {station} (no arcs)"),
        false => format!(
            "station {station} (nodes {}; arcs {})",
            runs(&case.station_nodes(station)),
            runs(&arcs)
        ),
    }
}

/// Numbers that go up, with three or more in a row as `1 to 31`.
fn runs(numbers: &[usize]) -> String {
    let words = |run: &[usize]| match run {
        [first, _, .., last] => vec![format!("{first} to {last}")],
        _ => run.iter().map(usize::to_string).collect(),
    };
    let runs = numbers.chunk_by(|one, next| one + 1 == *next);
    runs.flat_map(words).collect::<Vec<String>>().join(", ")
}

impl Explanation {
    /// The rule in words.
    pub fn rule(&self) -> String {
        let number = self.refusal.number;
        match rule_of(number) {
            Some(rule) => format!("rule {number}, {}: {}", rule.title, rule.question),
            None => format!("rule {number} is not known here"),
        }
    }

    /// Each part that fails, after the item.
    pub fn lines(&self) -> Vec<String> {
        if self.findings.is_empty() {
            let own = "no part of the question fails by the sums made here; the verdict stands";
            return vec![format!("{}: {own}", self.item)];
        }
        let line = |finding: &String| format!("{}: {finding}", self.item);
        self.findings.iter().map(line).collect()
    }
}
