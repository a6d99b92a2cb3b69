//! The questions 24 to 27 of an arc in a step.

use gasplan_text::model::{
    Arc, COMBINED, Machine, Node, PIPE, Plan, REGULATING, REGULATOR, SHORTCUT, VALVE,
};
use gasplan_text::words;

use crate::amount::{Amount, FLOW, MACHINE, MBAR};
use crate::bound::Bound;
use crate::check::{Check, Side, at_least, at_most, check, same, subset, sum, wide, within, zero};

const EMPTY_BOUND: &str =
    "an out bound of 0 stands for acthigh of the out end, and the slack u- does not widen it";

/// What an arc does with the pressures of its ends.
#[derive(Clone, Copy, PartialEq, Eq)]
pub enum Mode {
    /// Shut, off, or a pipe.
    Nothing,
    Equal,
    Falling,
    Raising,
}

/// None where the setting is unknown and says what the arc does.
pub fn mode(kind: i64, setting: i64) -> Option<Mode> {
    match (kind, setting) {
        (REGULATOR, _) => Some(Mode::Falling),
        (PIPE, _) => Some(Mode::Nothing),
        (_, setting) if !(0..=most_setting(kind)).contains(&setting) => None,
        (_, 0) => Some(Mode::Nothing),
        (VALVE | SHORTCUT, _) => Some(Mode::Equal),
        (REGULATING, _) | (COMBINED, 1 | 2) => Some(Mode::Falling),
        _ => Some(Mode::Raising),
    }
}

/// Settings of a kind go from 0 to this.
fn most_setting(kind: i64) -> i64 {
    match kind {
        VALVE => 1,
        REGULATOR | PIPE => 0,
        COMBINED => 4,
        _ => 2,
    }
}

/// Even settings above 0 of an artificial arc are the backward ones.
pub fn backward(arc: &Arc, setting: i64) -> bool {
    arc.station().is_some() && setting > 0 && setting % 2 == 0
}

/// The in end and the out end under a setting.
pub fn ends(arc: &Arc, setting: i64) -> (usize, usize) {
    match backward(arc, setting) {
        true => (arc.to, arc.from),
        false => (arc.from, arc.to),
    }
}

pub fn rule_24(plan: &Plan, step: usize, index: usize) -> Vec<Check> {
    let arc = &plan.case.arcs[index];
    let row = plan.arc(step, index);
    let least = if arc.is_pipe() { -arc.qmax } else { 0 };
    let flow = |name, number: i64| {
        let within = within(name, number, least, arc.qmax, Some(FLOW));
        match arc.qmax {
            // Nothing to choose.
            0 => within,
            qmax => within.margin_above(Bound::Flow, qmax.saturating_sub(number.saturating_abs())),
        }
    };
    let mut checks = vec![flow("a", row.a), flow("b", row.b)];
    if arc.kind == REGULATOR {
        checks.push(zero("b", row.b, "a regulator passes gas forward alone"));
    }
    checks.push(within(
        "setting",
        row.setting,
        0,
        most_setting(arc.kind),
        None,
    ));
    if arc.station().is_some() && !arc.both_ways() {
        let text = format!("setting = {}, backward on a one-way arc", row.setting);
        checks.push(check(!backward(arc, row.setting), text));
    }
    checks.push(match arc.has_machines() {
        true => subset(
            "machines",
            row.machines,
            arc.machine_set(),
            "the arc's machine set is",
        ),
        false => zero("machines", row.machines, "the arc has none"),
    });
    checks
}

/// Asked where the setting is known.
pub fn rule_25(plan: &Plan, step: usize, index: usize) -> Vec<Check> {
    let arc = &plan.case.arcs[index];
    let row = plan.arc(step, index);
    let setting = words::setting(arc.kind, row.setting);
    let why = format!("the setting is {}, {setting}", row.setting);
    let (a, b) = (zero("a", row.a, &why), zero("b", row.b, &why));
    let none = matches!(arc.kind, REGULATOR | PIPE);
    match (row.setting, arc.station()) {
        _ if mode(arc.kind, row.setting).is_none() => Vec::new(),
        (0, _) if !none => vec![a, b],
        (_, None) => Vec::new(),
        _ if backward(arc, row.setting) => vec![a],
        _ => vec![b],
    }
}

/// The machines that an arc's row names; none where the number is no set.
fn machines(plan: &Plan, step: usize, index: usize) -> Option<Vec<Machine>> {
    let station = plan.case.arcs[index].station().unwrap_or(usize::MAX);
    let all = plan.case.stations.get(station).map(|it| &it.machines);
    let named = plan.arc(step, index).machines;
    let machine = |item: usize| all?.get(item).copied();
    (named >= 0).then(|| {
        words::items(named)
            .into_iter()
            .filter_map(machine)
            .collect()
    })
}

/// A node that ends an arc, and its pressure in the step.
type End = (usize, i64);

/// Asked where the setting is known.
pub fn rule_26(plan: &Plan, step: usize, index: usize) -> Vec<Check> {
    let arc = &plan.case.arcs[index];
    let setting = plan.arc(step, index).setting;
    let (in_end, out_end) = ends(arc, setting);
    let end = |node: usize| (node, plan.pressure(step, node));
    let (in_end, out_end) = (end(in_end), end(out_end));
    let words = |(node, p): End| format!("p at node {node} = {p}");
    let (at_in, at_out) = (words(in_end), words(out_end));
    let in_side = (at_in.as_str(), wide(in_end.1));
    let out_side = (at_out.as_str(), wide(out_end.1));
    match mode(arc.kind, setting) {
        None | Some(Mode::Nothing) => Vec::new(),
        Some(Mode::Equal) => {
            let why = "gas passes freely, so they are to be equal";
            vec![same(in_side, out_side, MBAR).because(why)]
        }
        Some(Mode::Falling) => {
            let falls = at_least(in_side, out_side, MBAR).because("pressure cannot rise here");
            vec![falls.margin(Bound::Falling)]
        }
        Some(Mode::Raising) => {
            let machines = machines(plan, step, index);
            let mut checks = vec![risen(in_side, out_side, machines.as_deref())];
            checks.push(bounded(arc, &plan.case.nodes[out_end.0], out_end));
            checks.extend(machines.and_then(|machines| reach(&machines, in_end, out_end)));
            checks
        }
    }
}

/// A compressing arc keeps the pressure or raises it; with no machine on it reaches no more than the in end has.
fn risen(in_side: Side, out_side: Side, machines: Option<&[Machine]>) -> Check {
    match machines {
        Some([]) => {
            same(in_side, out_side, MBAR).because("no machine is on, so they are to be equal")
        }
        _ => at_least(out_side, in_side, MBAR)
            .because("a compressing arc cannot lower it")
            .margin(Bound::Rising),
    }
}

/// The out bound, or what an empty one stands for.
fn bounded(arc: &Arc, node: &Node, out_end: End) -> Check {
    let side = out_words(out_end);
    let under = |name: &str, most: i64| {
        let (side, bound) = ((side.as_str(), wide(out_end.1)), format!("{name} {most}"));
        at_most(side, (&bound, wide(most)), MBAR).margin(Bound::OutBound)
    };
    match arc.out_bound() {
        Some(most) => under("the out bound", most),
        None => under("its acthigh", node.acthigh)
            .because("the out bound is 0")
            .and(EMPTY_BOUND.to_string()),
    }
}

fn out_words((node, p): End) -> String {
    format!("p at the out end, node {node}, = {p}")
}

/// How far the machines raise the pressure of the in end. None where no machine is on: the ends are equal then.
fn reach(machines: &[Machine], (in_node, p_in): End, out_end: End) -> Option<Check> {
    let gains = machines.iter().map(|machine| machine.ratio - 1_000);
    let ratio = 1_000 + gains.clone().map(wide).sum::<i128>();
    // 1,000 × out ≤ in × ratio holds of whole numbers exactly if out is at most the quotient, rounded down, below 0 too.
    let most = (wide(p_in) * ratio).div_euclid(1_000);
    let side = out_words(out_end);
    let bound = format!("the {most} that its machines reach");
    let reached = at_most((&side, wide(out_end.1)), (&bound, most), MBAR).margin(Bound::Reach);
    let terms: String = gains.map(|gain| format!(" + {gain}")).collect();
    let from = format!("from p at the in end, node {in_node}, = {p_in}");
    let product = format!("{p_in} × (1000{terms}) / 1000, rounded down");
    (!machines.is_empty()).then(|| reached.and(format!("{from}: {product}")))
}

/// Asked where the setting is known.
pub fn rule_27(plan: &Plan, step: usize, index: usize) -> Vec<Check> {
    let arc = &plan.case.arcs[index];
    let row = plan.arc(step, index);
    let text = format!(
        "machines {} on an arc that does not compress",
        words::set(row.machines)
    );
    let machines = match mode(arc.kind, row.setting) {
        None => return Vec::new(),
        Some(Mode::Raising) => machines(plan, step, index),
        Some(_) => return vec![check(row.machines == 0, text)],
    };
    let Some(machines) = machines else {
        return Vec::new();
    };
    let flow = if backward(arc, row.setting) {
        row.b
    } else {
        row.a
    };
    let most: Vec<i64> = machines.iter().map(|machine| machine.flow).collect();
    let bound = format!("the {} that its machines take", sum(&most));
    let taken = most.iter().map(|&flow| wide(flow)).sum();
    let count = i128::from(row.machines.count_ones());
    let (on, unit) = (words::set(row.machines), MACHINE);
    let named = format!("{} {on}", Amount { count, unit });
    let allowed = format!("the most machines {}", arc.most_machines());
    vec![
        at_most(
            (&named, count),
            (&allowed, wide(arc.most_machines())),
            MACHINE,
        )
        .margin(Bound::MostMachines),
        at_most((&format!("flow {flow}"), wide(flow)), (&bound, taken), FLOW)
            .margin(Bound::MachineFlow),
    ]
}
