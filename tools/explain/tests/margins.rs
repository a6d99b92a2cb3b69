//! What `--margins` says is left: up to it a plan may go, one further it is refused by that question.

mod common;

use std::collections::BTreeMap;

use common::{ask, input_of, noes_of, refusal, refusals, second};
use explain::bound::Bound;
use explain::check::Check;
use explain::margins::{Kept, margins};
use explain::questions::checks_of_item;
use gasplan_text::model::{Case, Plan};
use inputs::aimed::sides::{left_28, left_29, left_33};
use inputs::model::{F, MACHINES, SOURCE, is_backward};
use inputs::{Pair, Rng, generate};

const SEEDS: u64 = 80;
/// Items of each bound that are tried in a plan: the tightest.
const TRIED: usize = 4;

const BOUNDS: [Bound; 18] = [
    Bound::Pressure,
    Bound::BoundaryFlow,
    Bound::SlackBelow,
    Bound::SlackAbove,
    Bound::ActiveLow,
    Bound::ActiveHigh,
    Bound::Flow,
    Bound::Falling,
    Bound::Rising,
    Bound::OutBound,
    Bound::Reach,
    Bound::MostMachines,
    Bound::MachineFlow,
    Bound::Stored,
    Bound::Friction,
    Bound::Entry,
    Bound::Exit,
    Bound::Balance,
];

/// Uses up what is left of a bound and `further` of it, by the numbers of the plan alone. None where the item has no
/// number that can move so far.
fn moved(pair: &Pair, bound: Bound, kept: &Kept, further: i64) -> Option<Pair> {
    let mut pair = pair.clone();
    let (step, place) = (kept.step, kept.place);
    let by = i64::try_from(kept.margin.left.count).ok()? + further;
    match bound {
        Bound::Pressure | Bound::BoundaryFlow | Bound::SlackBelow | Bound::SlackAbove => {
            move_node(&mut pair, bound, kept, by)
        }
        Bound::ActiveLow => pair.node_mut(step, place).p -= by,
        Bound::ActiveHigh => pair.node_mut(step, place).p += by,
        Bound::Flow => move_flow(&mut pair, kept, by),
        Bound::Falling | Bound::OutBound | Bound::Reach => out_end(&mut pair, step, place, by),
        Bound::Rising => out_end(&mut pair, step, place, -by),
        Bound::MostMachines => more_machines(&mut pair, kept, by)?,
        Bound::MachineFlow => along(&mut pair, step, place, by),
        Bound::Stored | Bound::Friction => move_pipe(&mut pair, bound, kept, by, further)?,
        Bound::Entry | Bound::Exit => against(&mut pair, bound, kept, by)?,
        Bound::Balance => move_balance(&mut pair, kept, by, further)?,
    }
    Some(pair)
}

/// The name before the first number of a margin, as `s+` of `s+ = 5, range ..`.
fn name(kept: &Kept) -> &str {
    kept.margin.numbers.split(' ').next().unwrap_or("")
}

/// The number moved away from 0.
fn outward(number: &mut i64, by: i64) {
    *number += if *number < 0 { -by } else { by };
}

fn move_node(pair: &mut Pair, bound: Bound, kept: &Kept, by: i64) {
    let node = pair.case.nodes[kept.place].clone();
    let row = pair.node_mut(kept.step, kept.place);
    match (bound, name(kept)) {
        (Bound::Pressure, _) if row.p - node.low < node.high - row.p => row.p -= by,
        (Bound::Pressure, _) => row.p += by,
        (_, "d") if node.kind == SOURCE => row.d += by,
        (_, "d") => row.d -= by,
        (_, "s+") => row.s_plus += by,
        (_, "s-") => row.s_minus += by,
        (_, "u+") => row.u_plus += by,
        (_, name) => {
            assert_eq!(name, "u-");
            row.u_minus += by;
        }
    }
}

fn move_flow(pair: &mut Pair, kept: &Kept, by: i64) {
    let row = pair.arc_mut(kept.step, kept.place);
    match name(kept) {
        "a" => outward(&mut row.a, by),
        name => {
            assert_eq!(name, "b");
            outward(&mut row.b, by);
        }
    }
}

/// The pressure at an arc's out end.
fn out_end(pair: &mut Pair, step: usize, arc: usize, by: i64) {
    let setting = pair.arc(step, arc).setting;
    let (_, out) = pair.case.arcs[arc].ends(setting);
    pair.node_mut(step, out).p += by;
}

/// Flow in the direction of an artificial arc's setting.
fn along(pair: &mut Pair, step: usize, arc: usize, by: i64) {
    let row = pair.arc_mut(step, arc);
    match is_backward(row.setting) {
        true => row.b += by,
        false => row.a += by,
    }
}

/// As many machines of the arc's set that are not on.
fn more_machines(pair: &mut Pair, kept: &Kept, by: i64) -> Option<()> {
    let set = pair.case.arcs[kept.place].more[MACHINES];
    let row = pair.arc_mut(kept.step, kept.place);
    for _ in 0..by {
        let free = set & !row.machines;
        if free == 0 {
            return None;
        }
        row.machines |= 1 << free.trailing_zeros();
    }
    Some(())
}

/// A pipe's a, by whole steps of what a g/s does to the sum; `by` rounded down, and one more to go further.
fn move_pipe(pair: &mut Pair, bound: Bound, kept: &Kept, by: i64, further: i64) -> Option<()> {
    let (step, place) = (kept.step, kept.place);
    let (left, each) = match bound {
        Bound::Stored => (left_28(pair, step, place), pair.case.span(step)),
        _ => (left_29(pair, step, place), pair.case.arcs[place].more[F]),
    };
    let steps = (by - further).checked_div(each)? + further;
    pair.arc_mut(step, place).a += if left < 0 { -steps } else { steps };
    Some(())
}

/// More flow by an arc of the station that carries gas out of it at the node, or, at an exit, into it.
fn against(pair: &mut Pair, bound: Bound, kept: &Kept, by: i64) -> Option<()> {
    let text = kept.margin.numbers.strip_prefix("net flow from node ")?;
    let node: usize = text.split(' ').next()?.parse().ok()?;
    let carries = |arc: &usize| {
        let setting = pair.arc(kept.step, *arc).setting;
        let (from, to) = pair.case.arcs[*arc].ends(setting);
        let end = if bound == Bound::Entry { to } else { from };
        setting > 0 && end == node
    };
    let arcs = pair.case.station_arcs(kept.place);
    let arc = arcs.into_iter().find(carries)?;
    along(pair, kept.step, arc, by);
    Some(())
}

/// A boundary node's d, with the slack that keeps its demand met.
fn move_balance(pair: &mut Pair, kept: &Kept, by: i64, further: i64) -> Option<()> {
    let (step, place) = (kept.step, kept.place);
    let left = left_33(pair, step, place);
    let steps = (by - further) / pair.case.span(step) + further;
    let row = pair.node_mut(step, place);
    match left < 0 {
        true => (row.d, row.s_minus) = (row.d + steps, row.s_minus + steps),
        false => (row.d, row.s_plus) = (row.d - steps, row.s_plus + steps),
    }
    Some(())
}

/// How often a bound was passed, and how often that was the first "no" too.
#[derive(Default)]
struct Tally {
    passed: usize,
    first: usize,
}

/// Is a bound kept at an item, and what is left of it? The least, where it has the bound more than once.
fn kept_and_left(pair: &Pair, bound: Bound, kept: &Kept) -> (bool, i128) {
    let (case, plan) = (Case::of(&pair.case.list()).unwrap(), pair.plan.list());
    let plan = Plan::new(&case, &plan);
    let mut checks = checks_of_item(&plan, bound.number(), kept.step, kept.place);
    checks.retain(|check| check.margin.as_ref().is_some_and(|it| it.bound == bound));
    let left = |check: &Check| check.margin.as_ref().map(|it| it.left.count);
    let least = checks.iter().filter_map(left).min();
    let holds = checks.iter().all(|check| check.holds);
    (holds, least.expect("the bound is asked"))
}

fn try_item(pair: &Pair, bound: Bound, kept: &Kept, tally: &mut Tally) {
    // An arc's flow counts at both of its ends, where the other may be a fence node of the same bound.
    let two_ends = matches!(bound, Bound::Entry | Bound::Exit);
    if let Some(up_to) = moved(pair, bound, kept, 0)
        && !two_ends
    {
        let (holds, left) = kept_and_left(&up_to, bound, kept);
        // A g/s is worth more than one where it is multiplied.
        let whole = !matches!(bound, Bound::Stored | Bound::Friction | Bound::Balance);
        assert!(holds && left >= 0, "{left} {bound:?} {kept:?}");
        assert!(left == 0 || !whole, "{left} {bound:?} {kept:?}");
    }
    let Some(past) = moved(pair, bound, kept, 1) else {
        return;
    };
    let (case, plan) = (past.case.list(), past.plan.list());
    let found = refusals(&noes_of(&case, &plan).rows);
    let question = refusal(bound.number(), kept.step, kept.place);
    assert!(found.contains(&question), "{bound:?} {kept:?} {found:?}");
    let (holds, left) = kept_and_left(&past, bound, kept);
    assert!(!holds && left < 0, "{left} {bound:?} {kept:?}");
    let verdict = input_of(&case, &plan).verdict().unwrap_err();
    assert_eq!((Some(verdict), found[0]), (second(&case, &plan), verdict));
    tally.passed += 1;
    tally.first += usize::from(verdict == question);
}

#[test]
fn a_margin_is_what_is_left() {
    let mut tallies: BTreeMap<Bound, Tally> = BTreeMap::new();
    for seed in 0..SEEDS {
        let pair = generate::accepted(&mut Rng::new(seed));
        let plan_list = pair.plan.list();
        if plan_list.len() > 2_000 {
            continue;
        }
        let case = Case::of(&pair.case.list()).unwrap();
        let plan = Plan::new(&case, &plan_list);
        for (bound, items) in margins(&plan) {
            let tally = tallies.entry(bound).or_default();
            for kept in items.iter().take(TRIED) {
                try_item(&pair, bound, kept, tally);
            }
        }
    }
    for bound in BOUNDS {
        let Tally { passed, first } = tallies.remove(&bound).unwrap_or_default();
        println!("{bound:?}: {passed} passed, {first} of them the first no");
        assert!(passed >= 20 && first >= 3, "{bound:?}: {passed}, {first}");
    }
    assert!(tallies.is_empty());
}

#[test]
fn margins_of_an_accepted_plan_stand_in_the_order_of_the_document() {
    let sorted = |bounds: &[Bound]| bounds.is_sorted() && bounds.is_sorted_by_key(|it| it.number());
    assert!(sorted(&BOUNDS));
    let text = ask("line --margins").text;
    let numbers: Vec<i64> = text
        .lines()
        .filter_map(|line| line.strip_prefix("  ")?.split(' ').next()?.parse().ok())
        .collect();
    assert!(numbers.len() >= 12 && numbers.is_sorted(), "{numbers:?}");
}

#[test]
fn the_tightest_items_come_first() {
    let text = ask("day --margins").text;
    let expected = "  23 p + u+ at least actlow, where there is demand
       node 5 (sink), step 20: 0 mbar left (p + u+ = 47557 + 43 = 47600, at least actlow 47600)
       node 5 (sink), step 22: 0 mbar left (p + u+ = 47203 + 397 = 47600, at least actlow 47600)
       node 5 (sink), step 23: 0 mbar left (p + u+ = 46805 + 795 = 47600, at least actlow 47600)
       and 1 more with 0 mbar left
";
    assert!(text.contains(expected), "{text}");
    let line = "compressor 2 (node 2 to 3, station 0), step 7: 93 mbar left (p at node 3 = 50309, at least p at node 2 = 50216)";
    assert!(text.contains(line), "{text}");
    assert!(
        text.contains("step 11: 3.056 mbar left (1000000 × "),
        "{text}"
    );
}

#[test]
fn a_refused_plan_has_no_margins() {
    for command in [
        "incident --margins",
        "crowd --margins",
        "two-nodes --append case 80 --margins",
    ] {
        let text = ask(command).text;
        assert!(
            text.contains("\nNo margins: they are those of an accepted plan.\n"),
            "{text}"
        );
        assert!(!text.contains(" left ("), "{text}");
    }
    let with_ledger = ask("two-nodes --margins --ledger 0,2 0 1");
    assert!(!with_ledger.accepted && with_ledger.text.contains("5,998 mbar left"));
}
