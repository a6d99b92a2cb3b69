//! Aimed changes of the case, and of the plan's head and length.

use std::collections::BTreeSet;

use super::{Aimed, aimed, bit, holds, refused};
use crate::model::{
    ACTIVE, Case, ENTRY, EXIT, MACHINES, OFF, ON, Pair, Refused, SHORTCUT, STATION,
};
use crate::rng::Rng;

pub fn aim_10_missing(rng: &mut Rng, pair: &Pair) -> Option<Aimed> {
    let mut case = pair.case.list();
    let place = rng.below(case.len());
    case.truncate(place);
    with_case(pair, case, refused(10, 0, place))
}

pub fn aim_11_too_small(rng: &mut Rng, pair: &Pair) -> Option<Aimed> {
    out_of_range(rng, pair, |low, _| [low - 1, i64::MIN])
}

pub fn aim_11_too_large(rng: &mut Rng, pair: &Pair) -> Option<Aimed> {
    out_of_range(rng, pair, |_, high| [high + 1, i64::MAX])
}

/// Any name of a field is as likely as any other, however many fields have it.
fn out_of_range(rng: &mut Rng, pair: &Pair, outside: fn(i64, i64) -> [i64; 2]) -> Option<Aimed> {
    let fields = pair.case.fields();
    let names: BTreeSet<&str> = fields.iter().map(|field| field.name).collect();
    let name = rng.pick(&names.into_iter().collect::<Vec<_>>())?;
    let places: Vec<usize> = (0..fields.len())
        .filter(|&place| fields[place].name == name)
        .collect();
    let place = rng.pick(&places)?;
    let [near, far] = outside(*fields[place].range.start(), *fields[place].range.end());
    let mut case = pair.case.list();
    case[place] = rng.pick(&[near, near, near, far])?;
    with_case(pair, case, refused(11, 0, place))
}

/// Sometimes with an arc from a node to itself, which is asked about later.
pub fn aim_12_left_over(rng: &mut Rng, pair: &Pair) -> Option<Aimed> {
    let mut pair = pair.clone();
    if let Some(arc) = pair.case.arcs.first_mut().filter(|_| rng.flip()) {
        arc.to = arc.from;
    }
    let mut case = pair.case.list();
    let place = case.len();
    for _ in 0..=rng.below(3) {
        case.push(rng.within(-1..=1));
    }
    with_case(&pair, case, refused(12, 0, place))
}

fn with_case(pair: &Pair, case: Vec<i64>, expect: Refused) -> Option<Aimed> {
    Some(Aimed {
        case,
        plan: pair.plan.list(),
        expect,
    })
}

pub fn aim_13_loop(rng: &mut Rng, pair: &Pair) -> Option<Aimed> {
    let mut pair = pair.clone();
    let count = pair.case.arcs.len();
    let arc = (count > 0).then(|| rng.below(count))?;
    let ends = &mut pair.case.arcs[arc];
    if rng.flip() {
        ends.to = ends.from;
    } else {
        ends.from = ends.to;
    }
    aimed(&pair, 13, 0, arc)
}

/// The arcs of all stations.
fn artificial_arcs(case: &Case) -> Vec<usize> {
    (0..case.arcs.len())
        .filter(|&arc| case.arcs[arc].kind >= SHORTCUT)
        .collect()
}

fn lowest_node_in_two_stations(case: &Case) -> Option<usize> {
    (0..case.nodes.len()).find(|&node| {
        let here = case
            .arcs
            .iter()
            .filter(|arc| arc.from == node || arc.to == node);
        let mut stations: Vec<usize> = here.filter_map(|arc| arc.station()).collect();
        stations.sort_unstable();
        stations.dedup();
        stations.len() > 1
    })
}

pub fn aim_14_end(rng: &mut Rng, pair: &Pair) -> Option<Aimed> {
    let mut pair = pair.clone();
    let artificial = artificial_arcs(&pair.case);
    let arc = rng.pick(&artificial)?;
    let other = rng.pick(&artificial)?;
    let node = pair.case.arcs[other].from;
    let ends = &mut pair.case.arcs[arc];
    if rng.flip() {
        ends.from = node;
    } else {
        ends.to = node;
    }
    let place = lowest_node_in_two_stations(&pair.case)?;
    let differ = pair.case.arcs[arc].from != pair.case.arcs[arc].to;
    differ.then(|| aimed(&pair, 14, 0, place))?
}

pub fn aim_14_station(rng: &mut Rng, pair: &Pair) -> Option<Aimed> {
    let mut pair = pair.clone();
    let arc = rng.pick(&artificial_arcs(&pair.case))?;
    pair.case.arcs[arc].more[STATION] = rng.below(pair.case.stations.len()) as i64;
    let place = lowest_node_in_two_stations(&pair.case)?;
    aimed(&pair, 14, 0, place)
}

/// Sometimes with a stranger in every entry set, which is asked about later.
pub fn aim_15_crowd(rng: &mut Rng, pair: &Pair) -> Option<Aimed> {
    let mut pair = pair.clone();
    let arc = rng.pick(&artificial_arcs(&pair.case))?;
    let station = pair.case.arcs[arc].station()?;
    let missing = 31 - pair.case.station_arcs(station).len();
    let copy = pair.case.arcs[arc].clone();
    for _ in 0..missing + rng.below(2) {
        let place = rng.below(pair.case.arcs.len() + 1);
        pair.case.arcs.insert(place, copy.clone());
    }
    if rng.flip() {
        for its in &mut pair.case.stations {
            its.directions[0][ENTRY] |= bit(59);
        }
    }
    (pair.case.arcs.len() <= 120).then(|| aimed(&pair, 15, 0, station))?
}

/// A random station, and a random one of its rows.
fn station_row(
    rng: &mut Rng,
    case: &Case,
    rows: impl Fn(usize) -> usize,
) -> Option<(usize, usize)> {
    let count = case.stations.len();
    let station = (count > 0).then(|| rng.below(count))?;
    Some((station, rng.below(rows(station))))
}

pub fn aim_16_shared(rng: &mut Rng, pair: &Pair) -> Option<Aimed> {
    let mut pair = pair.clone();
    let rows = |station: usize| pair.case.stations[station].directions.len();
    let (station, row) = station_row(rng, &pair.case, rows)?;
    let node = rng.pick(&pair.case.fence(station))?;
    let direction = &mut pair.case.stations[station].directions[row];
    direction[ENTRY] |= bit(node);
    direction[EXIT] |= bit(node);
    aimed(&pair, 16, 0, station)
}

pub fn aim_16_stranger(rng: &mut Rng, pair: &Pair) -> Option<Aimed> {
    let mut pair = pair.clone();
    let rows = |station: usize| pair.case.stations[station].directions.len();
    let (station, row) = station_row(rng, &pair.case, rows)?;
    let fence = pair.case.fence(station);
    // Often a node of the station that is no fence node.
    let own: Vec<usize> = pair
        .case
        .station_arcs(station)
        .iter()
        .flat_map(|&arc| [pair.case.arcs[arc].from, pair.case.arcs[arc].to])
        .filter(|node| !fence.contains(node))
        .collect();
    let any: Vec<usize> = (0..60).filter(|node| !fence.contains(node)).collect();
    let stranger = rng.pick(if own.is_empty() { &any } else { &own })?;
    let set = [ENTRY, EXIT][rng.below(2)];
    pair.case.stations[station].directions[row][set] |= bit(stranger);
    aimed(&pair, 16, 0, station)
}

pub fn aim_17_shared(rng: &mut Rng, pair: &Pair) -> Option<Aimed> {
    let mut pair = pair.clone();
    let rows = |station: usize| pair.case.stations[station].states.len();
    let (station, row) = station_row(rng, &pair.case, rows)?;
    let count = pair.case.station_arcs(station).len();
    let arc = (count > 0).then(|| rng.below(count))?;
    let state = &mut pair.case.stations[station].states[row];
    state[ON] |= bit(arc);
    state[OFF] |= bit(arc);
    aimed(&pair, 17, 0, station)
}

pub fn aim_17_stranger(rng: &mut Rng, pair: &Pair) -> Option<Aimed> {
    let mut pair = pair.clone();
    let rows = |station: usize| pair.case.stations[station].states.len();
    let (station, row) = station_row(rng, &pair.case, rows)?;
    let count = pair.case.station_arcs(station).len();
    let stranger = (count < 30).then(|| rng.skewed(count as i64..=29))?;
    let set = [ON, OFF][rng.below(2)];
    pair.case.stations[station].states[row][set] |= bit(stranger as usize);
    aimed(&pair, 17, 0, station)
}

pub fn aim_17_machine(rng: &mut Rng, pair: &Pair) -> Option<Aimed> {
    let mut pair = pair.clone();
    let mut arcs = artificial_arcs(&pair.case);
    arcs.retain(|&arc| pair.case.arcs[arc].has_machines());
    let arc = rng.pick(&arcs)?;
    let station = pair.case.arcs[arc].station()?;
    let count = pair.case.stations[station].machines.len();
    let stranger = (count < 12).then(|| rng.skewed(count as i64..=11))?;
    pair.case.arcs[arc].more[MACHINES] |= bit(stranger as usize);
    aimed(&pair, 17, 0, station)
}

/// An arc of the step-0 state's on set that is not active, or one of its off set that is.
pub fn aim_17_step_0(rng: &mut Rng, pair: &Pair) -> Option<Aimed> {
    let mut pair = pair.clone();
    let station = rng.below(pair.case.stations.len().max(1));
    let arcs = pair.case.station_arcs(station);
    let place = (!arcs.is_empty()).then(|| rng.below(arcs.len()))?;
    let row = pair.case.stations[station].state_at_0;
    let state = &mut pair.case.stations[station].states[row];
    if !holds(state[ON] | state[OFF], place) {
        state[[ON, OFF][rng.below(2)]] |= bit(place);
    }
    let active = i64::from(holds(state[OFF], place));
    pair.case.arcs[arcs[place]].more[ACTIVE] = active;
    aimed(&pair, 17, 0, station)
}

pub fn aim_20(rng: &mut Rng, pair: &Pair) -> Option<Aimed> {
    let mut plan = pair.plan.list();
    let steps = plan[1];
    match rng.below(6) {
        0 => plan[0] = rng.pick(&[0, 2, -1, i64::MIN, i64::MAX])?,
        1 => plan[1] = rng.pick(&[steps + 1, steps - 1, -steps, i64::MIN])?,
        2 => plan.truncate(rng.below(2)),
        3 => plan.truncate(rng.below(plan.len())),
        4 => plan.push(rng.within(-1..=1)),
        _ => plan.extend(pair.plan.list()),
    }
    Some(Aimed {
        case: pair.case.list(),
        plan,
        expect: refused(20, 0, 0),
    })
}
