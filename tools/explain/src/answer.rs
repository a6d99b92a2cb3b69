//! The whole answer to a request: text, and a picture where one is asked for.

use gasplan::{Refusal, Totals};
use gasplan_text::model::Plan;

use crate::balance::{self, Balance};
use crate::explanation::{Explanation, Region, explain};
use crate::input::{Input, Lists};
use crate::margins::margins;
use crate::noes::noes;
use crate::request::{Request, all_nodes};
use crate::svg::{Subject, picture};
use crate::{limits, listing, report};

pub struct Answer {
    pub text: String,
    pub picture: Option<String>,
    /// Was the plan accepted, and the ledger drawn up if one was asked for?
    pub accepted: bool,
}

/// Is the step to be shown one of the case's? Nothing is asked where the case is not whole: no step is shown then.
pub fn check_step(input: &Input, request: &Request) -> Result<(), String> {
    let steps = input.lists().case.map(|case| case.steps());
    match (request.step, steps) {
        (Some(step), Some(last)) if step > last => {
            Err(format!("--step {step}: the case has the steps 1 to {last}"))
        }
        _ => Ok(()),
    }
}

pub fn answer(input: &Input, request: &Request) -> Answer {
    let lists = input.lists();
    let verdict = input.verdict();
    let note = limits::note(input, &verdict).map_or(String::new(), |note| note + "\n");
    let told = match &verdict {
        Ok(totals) => accepted(totals, &note, &lists, input, request),
        Err(refusal) => refused(input, &lists, *refusal, &note, None),
    };
    let wanted = request.svg.is_some();
    let more = more(&told, &lists, input, request);
    Answer {
        picture: wanted.then(|| draw(&told, &lists, request)),
        text: format!("{}{more}{}\n", told.text, report::NOT_PROVED),
        accepted: told.accepted,
    }
}

/// Lists that are asked for beside the verdict.
fn more(told: &Told, lists: &Lists, input: &Input, request: &Request) -> String {
    let mut text = String::new();
    let region = region_of(lists, request);
    if request.ledger.is_some() && !told.accepted_plan {
        text.push_str("No ledger: it is drawn up of an accepted plan.\n");
    }
    if request.all {
        let verdict = told.explanation.as_ref().map(|it| it.refusal);
        text.push_str(&listing::noes(&noes(input, region), verdict));
    }
    if request.margins {
        let plan = lists.case.as_ref().filter(|_| told.accepted_plan);
        let plan = plan.map(|case| Plan::new(case, &lists.plan_list));
        text.push_str(&match plan {
            Some(plan) => listing::margins(&plan, &margins(&plan)),
            None => "No margins: they are those of an accepted plan.\n".to_string(),
        });
    }
    text
}

fn region_of(lists: &Lists, request: &Request) -> Option<Region> {
    let words = request.ledger.as_ref()?;
    Some(words.region(lists.case.as_ref()?.nodes.len()))
}

struct Told {
    text: String,
    explanation: Option<Explanation>,
    accepted: bool,
    /// Was the plan accepted, whatever became of the ledger?
    accepted_plan: bool,
}

fn refused(
    input: &Input,
    lists: &Lists,
    refusal: Refusal,
    note: &str,
    region: Option<Region>,
) -> Told {
    let explanation = explain(input, lists, refusal, region);
    Told {
        text: format!("{refusal}\n{note}{}", report::refused(&explanation)),
        explanation: Some(explanation),
        accepted: false,
        accepted_plan: false,
    }
}

fn accepted(totals: &Totals, note: &str, lists: &Lists, input: &Input, request: &Request) -> Told {
    let mut told = Told {
        text: format!("{totals}\n{note}{}", report::totals(totals)),
        explanation: None,
        accepted: true,
        accepted_plan: true,
    };
    let (Some(region), Some(case)) = (region_of(lists, request), &lists.case) else {
        return told;
    };
    let Region { set, s, t } = region;
    match gasplan::ledger(&lists.case_list, &lists.plan_list, set, s, t) {
        Ok(ledger) => told.text.push_str(&report::ledger(case, region, &ledger)),
        Err(refusal) => {
            let refused = refused(input, lists, refusal, "", Some(region));
            told.text.push_str(&refused.text);
            told.explanation = refused.explanation;
            told.accepted = false;
        }
    }
    told
}

fn draw(told: &Told, lists: &Lists, request: &Request) -> String {
    let number = told.explanation.as_ref().map(|it| it.refusal.number);
    // Up to 12 the case is not known to be whole, up to 20 the plan is not.
    let case = lists
        .case
        .as_ref()
        .filter(|_| number.is_none_or(|it| it > 12 || (5..=7).contains(&it)));
    let plan = case.map(|case| Plan::new(case, &lists.plan_list));
    let plan = plan.as_ref().filter(|_| number.is_none_or(|it| it > 20));
    let balance = plan.and_then(|plan| region_balance(plan, lists, request, number));
    let step = told.explanation.as_ref().map_or(0, |it| it.refusal.step);
    let shown = |plan: &Plan| match (request.step, step) {
        (Some(step), _) => step.min(plan.case.steps()),
        (None, 0) => plan.case.steps(),
        (None, step) => step,
    };
    let lines: Vec<&str> = told.text.lines().collect();
    let (verdict, words) = lines.split_first().unwrap_or((&"", &[]));
    let step_words = plan.map(|plan| {
        let step = shown(plan);
        format!(
            "Numbers are those of step {step}, {}.",
            plan.case.span_words(step)
        )
    });
    let kept = words.iter().map(|line| line.trim().to_string());
    picture(&Subject {
        verdict: verdict.to_string(),
        words: kept.chain(step_words).collect(),
        case,
        plan: plan.map(|plan| (plan, shown(plan))),
        mark: told.explanation.as_ref().and_then(|it| it.mark),
        balance: balance.as_ref(),
    })
}

/// The library's figures of an accepted plan, or sums of a refused one.
fn region_balance(
    plan: &Plan,
    lists: &Lists,
    request: &Request,
    number: Option<i64>,
) -> Option<Balance> {
    let nodes = plan.case.nodes.len();
    let set = match &request.ledger {
        Some(words) => words.region(nodes).set,
        None => all_nodes(nodes),
    };
    match number {
        None => {
            let steps = plan.case.steps();
            balance::of_library(&lists.case_list, &lists.plan_list, set, steps).ok()
        }
        Some(21..=33) => Some(balance::of_sums(plan, set)),
        Some(_) => None,
    }
}
