//! The questions on arcs: 24 to 29.

use super::Plan;
use crate::case::{Kind, Machinery, Node};
use crate::wide;

/// What an arc does with the pressures of its ends.
#[derive(Clone, Copy, PartialEq, Eq)]
enum Mode {
    /// Shut or off.
    Still,
    /// Lets gas pass between equal pressures.
    Level,
    Regulating,
    Compressing,
    /// A pipe, whose pressures are a matter for 29.
    Pipe,
}

/// An arc's setting, read by its kind.
#[derive(Clone, Copy)]
struct Doing {
    mode: Mode,
    backward: bool,
}

/// What the setting means for an arc of this kind; nothing if it is unknown.
fn doing(kind: &Kind, setting: i64) -> Option<Doing> {
    let (mode, backward) = match (kind, setting) {
        (Kind::Regulator, 0) => (Mode::Regulating, false),
        (Kind::Pipe(_), 0) => (Mode::Pipe, false),
        (Kind::Regulator | Kind::Pipe(_), _) => return None,
        (_, 0) => (Mode::Still, false),
        (Kind::Valve, 1) => (Mode::Level, false),
        (Kind::Shortcut(_), 1 | 2) => (Mode::Level, setting == 2),
        (Kind::Regulating(_), 1 | 2) => (Mode::Regulating, setting == 2),
        (Kind::Compressor(..), 1 | 2) => (Mode::Compressing, setting == 2),
        (Kind::Combined(..), 1 | 2) => (Mode::Regulating, setting == 2),
        (Kind::Combined(..), 3 | 4) => (Mode::Compressing, setting == 4),
        _ => return None,
    };
    Some(Doing { mode, backward })
}

pub(super) fn rule_24_arc_numbers(plan: &Plan, step: usize, index: usize) -> bool {
    let arc = &plan.case.arcs[index];
    let row = plan.arc(step, index);
    let least = if arc.pipe().is_some() { -arc.qmax } else { 0 };
    let flows = (least..=arc.qmax).contains(&row.a) && (least..=arc.qmax).contains(&row.b);
    let unused = !matches!(arc.kind, Kind::Regulator) || row.b == 0;
    let one_way = arc.artificial().is_some_and(|it| !it.both_ways);
    let setting = doing(&arc.kind, row.setting).is_some_and(|it| !(one_way && it.backward));
    let machines = match arc.machinery() {
        None => row.machines == 0,
        Some(machinery) => row.machines >= 0 && row.machines & !machinery.set == 0,
    };
    flows && unused && setting && machines
}

pub(super) fn rule_25_no_flow_against(plan: &Plan, step: usize, index: usize) -> bool {
    let arc = &plan.case.arcs[index];
    let row = plan.arc(step, index);
    match doing(&arc.kind, row.setting) {
        None => false,
        Some(doing) if doing.mode == Mode::Still => row.a == 0 && row.b == 0,
        Some(_) if arc.artificial().is_none() => true,
        Some(doing) if doing.backward => row.a == 0,
        Some(_) => row.b == 0,
    }
}

pub(super) fn rule_26_pressures(plan: &Plan, step: usize, index: usize) -> bool {
    let arc = &plan.case.arcs[index];
    let Some(doing) = doing(&arc.kind, plan.arc(step, index).setting) else {
        return false;
    };
    let (in_end, out_end) = match doing.backward {
        false => (arc.from, arc.to),
        true => (arc.to, arc.from),
    };
    let p_in = plan.pressure(step, in_end);
    let p_out = plan.pressure(step, out_end);
    match doing.mode {
        Mode::Still | Mode::Pipe => true,
        Mode::Level => p_in == p_out,
        Mode::Regulating => p_in >= p_out,
        Mode::Compressing => {
            let out_node = &plan.case.nodes[out_end];
            let bound = arc.machinery().map_or(0, |its| out_bound(its, out_node));
            let gains = plan.machines(step, index).map(|it| wide(it.ratio) - 1_000);
            let reach = wide(p_in) * (1_000 + gains.sum::<i128>());
            p_in <= p_out && p_out <= bound && 1_000 * wide(p_out) <= reach
        }
    }
}

/// An empty out bound, 0, stands for acthigh of the out end; no slack adds to it.
fn out_bound(machinery: &Machinery, out_end: &Node) -> i64 {
    match machinery.out_bound {
        0 => out_end.acthigh,
        bound => bound,
    }
}

pub(super) fn rule_27_machines(plan: &Plan, step: usize, index: usize) -> bool {
    let arc = &plan.case.arcs[index];
    let row = plan.arc(step, index);
    let compressing = doing(&arc.kind, row.setting).filter(|doing| doing.mode == Mode::Compressing);
    let (Some(doing), Some(machinery)) = (compressing, arc.machinery()) else {
        return row.machines == 0;
    };
    let flow = if doing.backward { row.b } else { row.a };
    let most = plan.machines(step, index).map(|it| wide(it.flow)).sum();
    i64::from(row.machines.count_ones()) <= machinery.most && wide(flow) <= most
}

/// |dt × (a - b) - c × (change of p at from + change at to)| of a pipe, 0 of any other arc.
pub fn rule_28_left_side(plan: &Plan, step: usize, index: usize) -> i128 {
    let arc = &plan.case.arcs[index];
    let Some(pipe) = arc.pipe() else { return 0 };
    let row = plan.arc(step, index);
    let change = |node| wide(plan.pressure(step, node)) - wide(plan.pressure(step - 1, node));
    let brought = wide(plan.case.spans[step - 1]) * (wide(row.a) - wide(row.b));
    let stored = wide(pipe.c) * (change(arc.from) + change(arc.to));
    (brought - stored).abs()
}

pub(super) fn rule_29_end_pressures(plan: &Plan, step: usize, index: usize) -> bool {
    let arc = &plan.case.arcs[index];
    let Some(pipe) = arc.pipe() else { return true };
    let row = plan.arc(step, index);
    let from = wide(plan.pressure(step, arc.from));
    let to = wide(plan.pressure(step, arc.to));
    let friction = wide(pipe.f) * wide(row.a) + wide(pipe.g) * wide(row.b);
    let left = 1_000_000 * (to - from) + friction + wide(pipe.h) * (from + to);
    left.abs() <= 1_000_000 * wide(plan.case.pressure_tolerance)
}
