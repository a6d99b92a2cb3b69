//! The lists that `--all` and `--margins` print.

use std::collections::BTreeMap;

use gasplan::Refusal;
use gasplan_text::model::Plan;

use crate::bound::Bound;
use crate::explanation::{Explanation, item_words};
use crate::margins::Kept;
use crate::noes::Noes;
use crate::rules::rule_of;

const NONE_TOO: &str = "No \"no\" in explain's own evaluation either, which is not proved.";
const NO_OTHER: &str = "It is the proved verdict.
Explain asks on where the judging ends, which is not proved, and finds no other.";
const OTHERS: &str = "Only the first is the proved verdict.
The others are found by explain, which asks on where the judging ends; they are not proved, and some may come of an earlier one.";
const WRONG: &str =
    "THEY DO NOT BEGIN WITH THE PROVED VERDICT: explain is wrong here, and the verdict stands.";

/// How many items of each bound are shown.
const SHOWN: usize = 3;

/// Every "no", beside the verdict that is proved; none where the plan is accepted.
pub fn noes(noes: &Noes, verdict: Option<Refusal>) -> String {
    let first = noes.rows.first().map(|row| row.refusal);
    let count = counts(&noes.rows);
    let mut text = match (first, verdict) {
        (None, None) => format!("{NONE_TOO}\n"),
        (Some(_), _) if first == verdict => {
            let others = if noes.rows.len() == 1 {
                NO_OTHER
            } else {
                OTHERS
            };
            format!("Every \"no\", in the order of the questions: {count}. {others}\n")
        }
        _ => format!("Every \"no\" that explain finds: {count}. {WRONG}\n"),
    };
    for row in &noes.rows {
        let label = if Some(row.refusal) == verdict {
            "verdict"
        } else {
            "also"
        };
        text.push_str(&row_text(label, row));
    }
    if !noes.left_out.is_empty() {
        text.push_str("Not asked, since a \"no\" above leaves them without a meaning:\n");
    }
    for line in &noes.left_out {
        text.push_str(&format!("  {line}\n"));
    }
    text
}

/// How many there are, and how many of each number, as `3 (28: 2, 33: 1)`.
fn counts(rows: &[Explanation]) -> String {
    let mut counts: Vec<(i64, usize)> = Vec::new();
    for row in rows {
        let number = row.refusal.number;
        match counts.iter_mut().find(|(it, _)| *it == number) {
            Some((_, count)) => *count += 1,
            None => counts.push((number, 1)),
        }
    }
    let text = |(number, count): &(i64, usize)| format!("{number}: {count}");
    let texts: Vec<String> = counts.iter().map(text).collect();
    format!("{} ({})", rows.len(), texts.join(", "))
}

fn row_text(label: &str, row: &Explanation) -> String {
    let Refusal {
        number,
        step,
        place,
    } = row.refusal;
    let title = rule_of(number).map_or("", |rule| rule.title);
    let mut text = format!(
        "  {label:<7}  {number} {step} {place}  {title}: {}\n",
        row.item
    );
    for finding in &row.findings {
        let finding = finding.replace('\n', "\n               ");
        text.push_str(&format!("           {finding}\n"));
    }
    text
}

/// What is left of each bound, the tightest items first.
pub fn margins(plan: &Plan, margins: &BTreeMap<Bound, Vec<Kept>>) -> String {
    let mut text = format!(
        "What is left of every bound, the {SHOWN} tightest items of each. Equations and choices (22, 25, 30, 31) have no margin,\n\
         nor has the 0 below d, slacks and flows. These sums are explain's and not proved.\n"
    );
    for (bound, items) in margins {
        text.push_str(&format!("  {} {}\n", bound.number(), bound.words()));
        for item in items.iter().take(SHOWN) {
            let words = item_words(plan.case, bound.number(), item.place);
            let (step, margin) = (item.step, &item.margin);
            let line = format!(
                "{words}, step {step}: {} left ({})",
                margin.left, margin.numbers
            );
            text.push_str(&format!("       {line}\n"));
        }
        text.push_str(&as_tight(items));
    }
    text
}

/// How many items are as tight as the last that is shown.
fn as_tight(items: &[Kept]) -> String {
    let left = |item: &Kept| item.margin.left;
    let last = items.get(SHOWN - 1).map(left);
    let more = items
        .iter()
        .skip(SHOWN)
        .filter(|item| Some(left(item)) == last);
    match (more.count(), last) {
        (0, _) | (_, None) => String::new(),
        (count, Some(last)) => format!("       and {count} more with {last} left\n"),
    }
}
