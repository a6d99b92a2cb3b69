//! The questions 30 to 32 of a station in a step.

use gasplan_text::model::{Direction, Plan};
use gasplan_text::words;

use crate::amount::FLOW;
use crate::bound::Bound;
use crate::case_rules::obeys;
use crate::check::{Check, Side, at_least, at_most, check, same, term, within};
use crate::node_rules::out_and_in;

pub fn rule_30(plan: &Plan, step: usize, index: usize) -> Vec<Check> {
    let station = &plan.case.stations[index];
    let row = plan.station(step, index);
    let last = |count: usize| count as i64 - 1;
    let (directions, states) = (last(station.directions.len()), last(station.states.len()));
    let mut checks = vec![
        within("direction", row.direction, 0, directions, None),
        within("state", row.state, 0, states, None),
    ];
    if checks.iter().any(|check| !check.holds) {
        return checks;
    }
    let (direction, state) = (row.direction as usize, row.state as usize);
    let supported = words::items(station.states[state].directions);
    checks.push(check(
        supported.contains(&direction),
        format!(
            "state {state} supports the directions {}, not direction {direction}",
            words::set(station.states[state].directions)
        ),
    ));
    let arcs = plan.case.station_arcs(index);
    let active = |arc: usize| plan.arc(step, arc).setting > 0;
    let what = format!("state {state}");
    checks.extend(obeys(plan.case, index, state, &arcs, &what, active));
    checks
}

pub fn rule_31(plan: &Plan, step: usize, index: usize) -> Vec<Check> {
    let arcs = plan.case.station_arcs(index);
    let named = |arc: usize| words::items(plan.arc(step, arc).machines);
    let mut machines: Vec<usize> = arcs.iter().flat_map(|&arc| named(arc)).collect();
    machines.sort_unstable();
    machines.dedup();
    let one = |machine: usize| {
        let on = arcs.iter().filter(|&&arc| named(arc).contains(&machine));
        let texts: Vec<String> = on.map(|&arc| plan.case.arc_words(arc)).collect();
        let count = texts.len();
        let texts = texts.join(" and on ");
        check(
            count <= 1,
            format!("machine {machine} is on {texts}: {count} arcs, over 1"),
        )
    };
    machines.into_iter().map(one).collect()
}

/// The direction that a station's row chooses, if there is one with that number.
pub fn chosen<'a>(plan: &Plan<'a>, step: usize, index: usize) -> Option<&'a Direction> {
    let chosen = plan.station(step, index).direction;
    plan.case.stations[index]
        .directions
        .get(usize::try_from(chosen).ok()?)
}

/// Asked where there is a direction with the number that is chosen.
pub fn rule_32(plan: &Plan, step: usize, index: usize) -> Vec<Check> {
    let Some(direction) = chosen(plan, step, index) else {
        return Vec::new();
    };
    let fence = plan.case.fence(index);
    let at = |&node: &usize| fence_flow(plan, step, index, node, direction);
    fence.iter().flat_map(at).collect()
}

/// Net flow from a fence node into the station's artificial arcs.
fn fence_flow(
    plan: &Plan,
    step: usize,
    station: usize,
    node: usize,
    direction: &Direction,
) -> Vec<Check> {
    let its_own = |arc: usize| plan.case.arcs[arc].station() == Some(station);
    let (out, into) = out_and_in(plan, step, node, |_, arc| its_own(arc));
    let net = out - into;
    let side = format!(
        "net flow from node {node} into the station: {out} - {} = {net}",
        term(into)
    );
    let side: Side = (&side, net);
    let chosen = plan.station(step, station).direction;
    // Where none of its arcs at the node is active, 25 leaves no flow to choose.
    let at_node = |arc: usize| [plan.case.arcs[arc].from, plan.case.arcs[arc].to].contains(&node);
    let active = |arc: usize| its_own(arc) && at_node(arc) && plan.arc(step, arc).setting > 0;
    let moves = (0..plan.case.arcs.len()).any(active);
    let bounded = |check: Check, bound| if moves { check.margin(bound) } else { check };
    let mut checks = Vec::new();
    let (entry, exit) = (words::items(direction.entry), words::items(direction.exit));
    if entry.contains(&node) {
        let inward = at_least(side, ("0", 0), FLOW)
            .because(&format!("it is an entry of direction {chosen}"));
        checks.push(bounded(inward, Bound::Entry));
    }
    if exit.contains(&node) {
        let outward =
            at_most(side, ("0", 0), FLOW).because(&format!("it is an exit of direction {chosen}"));
        checks.push(bounded(outward, Bound::Exit));
    }
    if checks.is_empty() {
        let why = format!("it is neither entry nor exit of direction {chosen}");
        checks.push(same(side, ("0", 0), FLOW).because(&why));
    }
    checks
}
