//! The questions 13 to 17 of an item of the case.

use gasplan_text::model::{Arc, Case};
use gasplan_text::words;

use crate::amount::Unit;
use crate::check::{Check, at_most, check, subset};

const MOST_ARCS: usize = 30;

fn arc_list(arcs: &[usize]) -> String {
    let texts: Vec<String> = arcs.iter().map(|arc| format!("arc {arc}")).collect();
    texts.join(", ")
}

pub fn rule_13(case: &Case, arc: usize) -> Vec<Check> {
    let Arc { from, to, .. } = case.arcs[arc];
    vec![check(
        from != to,
        format!("from = {from}, to = {to}: both are the same node"),
    )]
}

pub fn rule_14(case: &Case, node: usize) -> Vec<Check> {
    let mut stations: Vec<(usize, Vec<usize>)> = Vec::new();
    for (index, arc) in case.arcs.iter().enumerate() {
        let (Some(station), true) = (arc.station(), arc.from == node || arc.to == node) else {
            continue;
        };
        match stations.iter_mut().find(|(it, _)| *it == station) {
            Some((_, arcs)) => arcs.push(index),
            None => stations.push((station, vec![index])),
        }
    }
    let texts: Vec<String> = stations
        .iter()
        .map(|(station, arcs)| format!("station {station} ({})", arc_list(arcs)))
        .collect();
    let text = format!("it is in {}", texts.join(" and in "));
    vec![check(stations.len() <= 1, text)]
}

pub fn rule_15(case: &Case, station: usize) -> Vec<Check> {
    let arcs = case.station_arcs(station).len();
    let (side, most) = (format!("{arcs} artificial arcs"), MOST_ARCS.to_string());
    let sides = (
        (side.as_str(), arcs as i128),
        (most.as_str(), MOST_ARCS as i128),
    );
    vec![at_most(sides.0, sides.1, Unit::Thing("arc"))]
}

pub fn rule_16(case: &Case, station: usize) -> Vec<Check> {
    let fence: i64 = case.fence(station).iter().map(|node| 1 << node).sum();
    let mut checks = Vec::new();
    for (row, direction) in case.stations[station].directions.iter().enumerate() {
        let (entry, exit) = (direction.entry, direction.exit);
        let shared = words::set(entry & exit);
        let (entries, exits) = (words::set(entry), words::set(exit));
        checks.push(check(
            entry & exit == 0,
            format!("direction {row}: entry {entries} and exit {exits} share {shared}"),
        ));
        for (name, set) in [("entry", entry), ("exit", exit)] {
            let name = format!("direction {row}: {name}");
            checks.push(subset(&name, set, fence, "the station's fence nodes are"));
        }
    }
    checks
}

pub fn rule_17(case: &Case, station: usize) -> Vec<Check> {
    let arcs = case.station_arcs(station);
    let its_arcs = (1 << arcs.len().min(MOST_ARCS)) - 1;
    let mut checks = Vec::new();
    for (row, state) in case.stations[station].states.iter().enumerate() {
        let shared = words::set(state.on & state.off);
        let (on, off) = (words::set(state.on), words::set(state.off));
        checks.push(check(
            state.on & state.off == 0,
            format!("state {row}: on {on} and off {off} share {shared}"),
        ));
        for (name, set) in [("on", state.on), ("off", state.off)] {
            let name = format!("state {row}: {name}");
            checks.push(subset(&name, set, its_arcs, "the station's arcs count as"));
        }
    }
    let its_machines = (1 << case.stations[station].machines.len().min(62)) - 1;
    for &index in arcs.iter().filter(|&&arc| case.arcs[arc].has_machines()) {
        let name = format!("arc {index}: machine set");
        let set = case.arcs[index].machine_set();
        checks.push(subset(
            &name,
            set,
            its_machines,
            "the station's machines are",
        ));
    }
    checks.extend(activity_at_0(case, station, &arcs));
    checks
}

fn activity_at_0(case: &Case, station: usize, arcs: &[usize]) -> Vec<Check> {
    let state_at_0 = case.stations[station].state_at_0;
    let active = |arc: usize| case.arcs[arc].active_at_0();
    let state = usize::try_from(state_at_0).unwrap_or(usize::MAX);
    let what = format!("state {state_at_0}, that at step 0,");
    obeys(case, station, state, arcs, &what, active)
}

/// Are the state's on arcs active, and its off arcs not?
pub fn obeys(
    case: &Case,
    station: usize,
    state: usize,
    arcs: &[usize],
    what: &str,
    active: impl Fn(usize) -> bool,
) -> Vec<Check> {
    let Some(state) = case.stations[station].states.get(state) else {
        return Vec::new();
    };
    let part = |set: i64, asked: bool| {
        let wanted: Vec<usize> = words::items(set)
            .into_iter()
            .filter_map(|item| arcs.get(item).copied())
            .collect();
        let wrong: Vec<usize> = wanted
            .into_iter()
            .filter(|&arc| active(arc) != asked)
            .collect();
        let (has, is) = match asked {
            true => ("on", "not active"),
            false => ("off", "active"),
        };
        let (are, them) = match wrong.len() {
            1 => ("is", "it"),
            _ => ("are", "them"),
        };
        let arcs = arc_list(&wrong);
        check(
            wrong.is_empty(),
            format!("{arcs} {are} {is}, but {what} has {them} {has}"),
        )
    };
    vec![part(state.on, true), part(state.off, false)]
}
