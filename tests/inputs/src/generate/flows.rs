//! Flows: paths through arcs that are no pipes, then pipes that take up what is left.

use super::{Draft, Role, Style};
use crate::model::{
    ArcRow, INNER, PIPE, REGULATOR, SHORTCUT, SINK, SOURCE, VALVE, is_backward, named,
};
use crate::rng::Rng;

/// Paths tried in each step.
pub const WALKS: usize = 12;

/// The most arcs a path has.
const LONGEST: usize = 8;

pub fn draw(rng: &mut Rng, draft: &mut Draft) {
    let around = arcs_around(draft);
    for step in 1..=draft.steps() {
        for _ in 0..WALKS {
            walk(rng, draft, &around, step);
        }
        stir_valves(rng, draft, step);
        for group in 0..draft.groups.len() {
            settle(rng, draft, &around, group, step);
        }
    }
}

/// The arcs that end at each node.
fn arcs_around(draft: &Draft) -> Vec<Vec<usize>> {
    let mut around = vec![Vec::new(); draft.kinds.len()];
    for (index, it) in draft.arcs.iter().enumerate() {
        around[it.arc.from].push(index);
        around[it.arc.to].push(index);
    }
    around
}

/// Sends some gas along a path, so that every node between its ends stays balanced.
fn walk(rng: &mut Rng, draft: &mut Draft, around: &[Vec<usize>], step: usize) {
    let Some(path) = find_path(rng, draft, around, step) else {
        return;
    };
    let room = path
        .iter()
        .map(|&(arc, _)| room(draft, arc, step))
        .min()
        .unwrap_or(0);
    let flow = match rng.below(4) {
        0 => room,
        _ => rng.skewed(1..=room.max(1)).min(room),
    };
    for (arc, forward) in path {
        let row = &mut draft.arcs[arc].rows[step];
        *(if forward { &mut row.a } else { &mut row.b }) += flow;
    }
}

/// Arcs with the way they are taken, from a node that can give to one that can take.
fn find_path(
    rng: &mut Rng,
    draft: &Draft,
    around: &[Vec<usize>],
    step: usize,
) -> Option<Vec<(usize, bool)>> {
    let mut at = rng.below(draft.kinds.len());
    if !can_be_end(draft, at, SOURCE) {
        return None;
    }
    let mut path: Vec<(usize, bool)> = Vec::new();
    let mut inside = false;
    while path.len() < LONGEST {
        let mut ways = Vec::new();
        for &arc in &around[at] {
            let new = path.iter().all(|&(taken, _)| taken != arc);
            let forward = draft.arcs[arc].arc.from == at;
            let artificial = draft.arcs[arc].arc.kind >= SHORTCUT;
            let passes = artificial == inside || gate(draft, at, step, artificial);
            if new && passes && is_open(draft, arc, step, forward) {
                ways.push((arc, forward));
            }
        }
        let (arc, forward) = rng.pick(&ways)?;
        path.push((arc, forward));
        let ends = &draft.arcs[arc].arc;
        at = if forward { ends.to } else { ends.from };
        inside = ends.kind >= SHORTCUT;
        let may_stop = !inside || gate(draft, at, step, false);
        if may_stop && can_be_end(draft, at, SINK) && rng.below(3) > 0 {
            return Some(path);
        }
    }
    None
}

/// A tree takes up any flow; elsewhere only a source gives and only a sink takes.
fn can_be_end(draft: &Draft, node: usize, kind: i64) -> bool {
    let group = &draft.groups[draft.group_of[node]];
    matches!(group.style, Style::Tree { .. }) || draft.kinds[node] == kind
}

/// May gas go into (or out of) the node's station here, by the direction of the step?
fn gate(draft: &Draft, node: usize, step: usize, into: bool) -> bool {
    let Some(station) = draft.station_of[node] else {
        return true;
    };
    let station = &draft.stations[station];
    let [entry, exit, _] = station.directions[station.rows[step].direction as usize];
    let set = if into { entry } else { exit };
    station.fence >> node & 1 == 0 || set >> node & 1 == 1
}

/// Can the arc carry gas this way in this step?
fn is_open(draft: &Draft, arc: usize, step: usize, forward: bool) -> bool {
    let it = &draft.arcs[arc];
    let setting = it.rows[step].setting;
    match it.arc.kind {
        PIPE => false,
        REGULATOR => forward,
        VALVE => setting == 1,
        _ => setting > 0 && forward != is_backward(setting),
    }
}

/// How much more the arc can take: what its machines leave, and no more than a share.
fn room(draft: &Draft, arc: usize, step: usize) -> i64 {
    let it = &draft.arcs[arc];
    let row = it.rows[step];
    let station = it.arc.station().map(|station| &draft.stations[station]);
    match station {
        Some(station) if it.arc.compresses(row.setting) => {
            let most: i64 = named(&station.machines, row.machines)
                .map(|[flow, _]| flow)
                .sum();
            (most - row.a - row.b).min(draft.share)
        }
        _ => draft.share,
    }
}

/// An open valve may have flow both ways at once.
fn stir_valves(rng: &mut Rng, draft: &mut Draft, step: usize) {
    for index in 0..draft.arcs.len() {
        let open = draft.arcs[index].arc.kind == VALVE && draft.arcs[index].rows[step].setting == 1;
        if open && rng.once_in(4) {
            let flow = rng.skewed(0..=draft.share);
            let row = &mut draft.arcs[index].rows[step];
            row.a += flow;
            row.b += flow;
        }
    }
}

/// Flow out less flow in at a node, over all arcs.
fn balance(draft: &Draft, around: &[Vec<usize>], node: usize, step: usize) -> i64 {
    let flow = |&index: &usize| {
        let it = &draft.arcs[index];
        let ArcRow { a, b, .. } = it.rows[step];
        match (it.arc.from == node, it.arc.kind == PIPE) {
            (true, true) => a,
            (true, false) => a - b,
            (false, true) => -b,
            (false, false) => b - a,
        }
    };
    around[node].iter().map(flow).sum()
}

/// Chooses the boundary flows of a group, and a tree's pipe flows.
fn settle(rng: &mut Rng, draft: &mut Draft, around: &[Vec<usize>], group: usize, step: usize) {
    let nodes = draft.groups[group].nodes.clone();
    match draft.groups[group].style {
        Style::Tree { root, partner } => {
            settle_tree(rng, draft, around, &nodes, root, partner, step);
        }
        Style::Single | Style::Spur => {
            for node in nodes {
                let balance = balance(draft, around, node, step);
                draft.d[step][node] = leaning(rng, draft, node, step, balance);
            }
        }
    }
}

/// A boundary flow off the balance by no more than 33 allows, with the sign of its kind.
fn leaning(rng: &mut Rng, draft: &Draft, node: usize, step: usize, balance: i64) -> i64 {
    let most = draft.imbalance(step);
    let d = balance - rng.skewed(-most..=most);
    let fits = match draft.kinds[node] {
        INNER => d == 0,
        SOURCE => d >= 0,
        _ => d <= 0,
    };
    if fits { d } else { balance }
}

fn settle_tree(
    rng: &mut Rng,
    draft: &mut Draft,
    around: &[Vec<usize>],
    nodes: &[usize],
    root: usize,
    partner: usize,
    step: usize,
) {
    for &node in nodes {
        let flow = rng.skewed(0..=draft.share);
        draft.d[step][node] = match draft.kinds[node] {
            INNER => 0,
            SOURCE => flow,
            _ => -flow,
        };
    }
    loop_flows(rng, draft, nodes, step);
    let most = draft.imbalance(step);
    let leans: Vec<i64> = nodes.iter().map(|_| rng.skewed(-most..=most)).collect();
    let sign = if draft.kinds[root] == SOURCE { 1 } else { -1 };
    let missing = -sign * push_up(draft, around, nodes, &leans, step);
    if missing > 0 {
        draft.d[step][partner] -= sign * (missing + rng.skewed(0..=draft.share));
        push_up(draft, around, nodes, &leans, step);
    }
}

fn loop_flows(rng: &mut Rng, draft: &mut Draft, nodes: &[usize], step: usize) {
    let share = draft.share;
    for it in &mut draft.arcs {
        if it.role == Role::Loop && nodes.contains(&it.arc.from) {
            it.rows[step].a = rng.skewed(-share..=share);
            it.rows[step].b = it.rows[step].a - it.lost[step];
        }
    }
}

/// From the leaves to the root, each pipe takes what its child leaves; gives the root's d.
fn push_up(
    draft: &mut Draft,
    around: &[Vec<usize>],
    nodes: &[usize],
    leans: &[i64],
    step: usize,
) -> i64 {
    let pipe_to = |draft: &Draft, node: usize| {
        let role = Role::Tree { child: node };
        around[node]
            .iter()
            .copied()
            .find(|&index| draft.arcs[index].role == role)
    };
    for &node in nodes {
        if let Some(pipe) = pipe_to(draft, node) {
            draft.arcs[pipe].rows[step] = ArcRow::default();
        }
    }
    for (&node, lean) in nodes.iter().zip(leans).rev() {
        let open = draft.d[step][node] + lean - balance(draft, around, node, step);
        let Some(pipe) = pipe_to(draft, node) else {
            draft.d[step][node] -= open;
            return draft.d[step][node];
        };
        let it = &mut draft.arcs[pipe];
        let lost = it.lost[step];
        let (a, b) = if it.arc.from == node {
            (open, open - lost)
        } else {
            (lost - open, -open)
        };
        (it.rows[step].a, it.rows[step].b) = (a, b);
    }
    0
}
