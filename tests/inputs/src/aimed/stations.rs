//! Aimed changes at stations: 30 to 32.

use super::sides::net_32;
use super::{Aimed, aimed, bit, find, first_step, holds};
use crate::model::{ACTIVE, DIRECTIONS, ENTRY, EXIT, MACHINES, MOST, OFF, ON, Pair};
use crate::rng::Rng;

pub fn aim_30_range(rng: &mut Rng, pair: &Pair) -> Option<Aimed> {
    let mut pair = pair.clone();
    let (step, station) = find(rng, &pair, pair.case.stations.len(), |_, _| true)?;
    let directions = pair.case.stations[station].directions.len() as i64;
    let states = pair.case.stations[station].states.len() as i64;
    let row = pair.station_mut(step, station);
    if rng.flip() {
        row.direction = rng.pick(&[-1, directions, directions + 63, i64::MIN, i64::MAX])?;
    } else {
        row.state = rng.pick(&[-1, states, 64, i64::MIN, i64::MAX])?;
    }
    aimed(&pair, 30, step, station)
}

pub fn aim_30_support(rng: &mut Rng, pair: &Pair) -> Option<Aimed> {
    let mut pair = pair.clone();
    let (step, station) = find(rng, &pair, pair.case.stations.len(), |_, _| true)?;
    let its = &pair.case.stations[station];
    let mut unsupported = Vec::new();
    for (state, row) in its.states.iter().enumerate() {
        let directions = 0..its.directions.len();
        let left_out = directions.filter(|&direction| !holds(row[DIRECTIONS], direction));
        unsupported.extend(left_out.map(|direction| (direction as i64, state as i64)));
    }
    let (direction, state) = rng.pick(&unsupported)?;
    let row = pair.station_mut(step, station);
    (row.direction, row.state) = (direction, state);
    aimed(&pair, 30, step, station)
}

pub fn aim_30_on(rng: &mut Rng, pair: &Pair) -> Option<Aimed> {
    disobey(rng, pair, false)
}

pub fn aim_30_off(rng: &mut Rng, pair: &Pair) -> Option<Aimed> {
    disobey(rng, pair, true)
}

/// Puts an arc that is not active into the on set of the chosen state, or an active one
/// into its off set; activity at step 0 follows, so that 17 is passed.
fn disobey(rng: &mut Rng, pair: &Pair, active: bool) -> Option<Aimed> {
    let mut pair = pair.clone();
    let is_active = |pair: &Pair, step: usize, arc: usize| pair.arc(step, arc).setting > 0;
    let test = |step: usize, arc: usize| {
        pair.case.arcs[arc].station().is_some() && is_active(&pair, step, arc) == active
    };
    let (step, arc) = find(rng, &pair, pair.case.arcs.len(), test)?;
    let station = pair.case.arcs[arc].station()?;
    let arcs = pair.case.station_arcs(station);
    let place = arcs.iter().position(|&it| it == arc)?;
    let chosen = pair.station(step, station).state;
    let (set, other) = if active { (OFF, ON) } else { (ON, OFF) };
    let state = &mut pair.case.stations[station].states[chosen as usize];
    state[set] |= bit(place);
    state[other] &= !bit(place);
    if pair.case.stations[station].state_at_0 == chosen as usize {
        pair.case.arcs[arc].more[ACTIVE] = i64::from(!active);
    }
    let fails = |step| {
        let in_state = pair.station(step, station).state == chosen;
        in_state && is_active(&pair, step, arc) == active
    };
    let first = first_step(&pair, fails)?;
    aimed(&pair, 30, first, station)
}

/// Gives a compressing arc a machine that another arc of the station has too. Both pass
/// alone.
pub fn aim_31(rng: &mut Rng, pair: &Pair) -> Option<Aimed> {
    let mut pair = pair.clone();
    let compresses = |pair: &Pair, step: usize, arc: usize| {
        pair.case.arcs[arc].compresses(pair.arc(step, arc).setting)
    };
    let partners = |pair: &Pair, step: usize, arc: usize| {
        let station = pair.case.arcs[arc].station();
        let fits = |&other: &usize| {
            let with_machines = pair.arc(step, other).machines != 0;
            other != arc
                && with_machines
                && station.is_some()
                && pair.case.arcs[other].station() == station
        };
        (0..pair.case.arcs.len()).filter(fits).collect::<Vec<_>>()
    };
    let test = |step: usize, arc: usize| {
        compresses(&pair, step, arc) && !partners(&pair, step, arc).is_empty()
    };
    let (step, arc) = find(rng, &pair, pair.case.arcs.len(), test)?;
    let other = rng.pick(&partners(&pair, step, arc))?;
    let set = pair.arc(step, other).machines;
    let machine = set & -set;
    pair.case.arcs[arc].more[MACHINES] |= machine;
    pair.case.arcs[arc].more[MOST] = 12;
    pair.arc_mut(step, arc).machines |= machine;
    let station = pair.case.arcs[arc].station()?;
    lose_32_from(&mut pair, step, station);
    aimed(&pair, 31, step, station)
}

/// Takes a fence node with flow out of the direction's sets, if 32 fails in this step
/// first: 31 is asked before it.
fn lose_32_from(pair: &mut Pair, step: usize, station: usize) {
    let chosen = pair.station(step, station).direction;
    let fails = |node: usize| {
        let fails =
            |step| pair.station(step, station).direction == chosen && net_32(pair, step, node) != 0;
        first_step(pair, fails) == Some(step)
    };
    let found = pair.case.fence(station).into_iter().find(|&it| fails(it));
    if let Some(node) = found {
        let direction = &mut pair.case.stations[station].directions[chosen as usize];
        direction[ENTRY] &= !bit(node);
        direction[EXIT] &= !bit(node);
    }
}

pub fn aim_32_neither(rng: &mut Rng, pair: &Pair) -> Option<Aimed> {
    reroute(rng, pair, |_| 0)
}

pub fn aim_32_other(rng: &mut Rng, pair: &Pair) -> Option<Aimed> {
    reroute(rng, pair, |net| -net.signum())
}

/// Changes a fence node's part in the chosen direction: 1 entry, -1 exit, 0 neither.
fn reroute(rng: &mut Rng, pair: &Pair, part: fn(i64) -> i64) -> Option<Aimed> {
    let mut pair = pair.clone();
    let station = rng.below(pair.case.stations.len().max(1));
    if pair.case.stations.is_empty() {
        return None;
    }
    let fence = pair.case.fence(station);
    let flowing = |step: usize, place: usize| net_32(&pair, step, fence[place]) != 0;
    let (step, place) = find(rng, &pair, fence.len(), flowing)?;
    let node = fence[place];
    let part = part(net_32(&pair, step, node));
    let chosen = pair.station(step, station).direction;
    let direction = &mut pair.case.stations[station].directions[chosen as usize];
    direction[ENTRY] &= !bit(node);
    direction[EXIT] &= !bit(node);
    match part {
        1 => direction[ENTRY] |= bit(node),
        -1 => direction[EXIT] |= bit(node),
        _ => {}
    }
    let fails = |step: usize| {
        let net = net_32(&pair, step, node);
        let wrong = if part == 0 { net != 0 } else { net * part < 0 };
        pair.station(step, station).direction == chosen && wrong
    };
    let first = first_step(&pair, fails)?;
    aimed(&pair, 32, first, station)
}
