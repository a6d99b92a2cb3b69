//! Station states that the chosen settings obey, and the choices at step 0.

use super::{Draft, DraftStation};
use crate::model::{ACTIVE, DIRECTIONS, MOST_WEIGHT, OFF, ON, Station};
use crate::rng::Rng;

/// Makes the states and fills in the state of every step and the activity at step 0.
pub fn draw(rng: &mut Rng, draft: &mut Draft, station: usize) -> Station {
    let arcs: Vec<usize> = (0..draft.arcs.len())
        .filter(|&index| draft.arcs[index].arc.station() == Some(station))
        .collect();
    let room = rng.skewed(1..=16) as usize;
    let mut states: Vec<[i64; 4]> = Vec::new();
    for step in 1..=draft.steps() {
        let active = active_set(draft, &arcs, step);
        let all = (1 << arcs.len()) - 1;
        let its = &mut draft.stations[station];
        let direction = its.rows[step].direction;
        let chosen = find_state(rng, &mut states, room, direction, active, all);
        its.rows[step].state = chosen as i64;
    }
    let its = &draft.stations[station];
    add_unused(rng, &mut states, room, its.directions.len(), arcs.len());
    let finished = finish(rng, its, states);
    let state_at_0 = finished.states[finished.state_at_0];
    for (bit, &arc) in arcs.iter().enumerate() {
        let [_, on, off, _] = state_at_0.map(|set| set >> bit & 1);
        let free = rng.within(0..=1);
        draft.arcs[arc].arc.more[ACTIVE] = if on == 1 { 1 } else { free & (1 - off) };
    }
    finished
}

fn active_set(draft: &Draft, arcs: &[usize], step: usize) -> i64 {
    let bit =
        |(bit, &arc): (usize, &usize)| i64::from(draft.arcs[arc].rows[step].setting > 0) << bit;
    arcs.iter().enumerate().map(bit).sum()
}

/// A state that fits, a new one as long as there is room, or one that asks for nothing.
fn find_state(
    rng: &mut Rng,
    states: &mut Vec<[i64; 4]>,
    room: usize,
    direction: i64,
    active: i64,
    all: i64,
) -> usize {
    let fits = |state: &[i64; 4]| state[ON] & !active == 0 && state[OFF] & active == 0;
    let weight = rng.skewed(0..=MOST_WEIGHT);
    let found = states.iter().position(fits).filter(|_| rng.below(4) > 0);
    let place = found.unwrap_or_else(|| {
        if states.len() + 1 < room {
            states.push([0, rng.part_of(active), rng.part_of(all & !active), weight]);
        } else if states.len() < room {
            states.push([0, 0, 0, weight]);
        }
        states.iter().rposition(fits).unwrap_or(0)
    });
    states[place][DIRECTIONS] |= 1 << direction;
    place
}

/// Adds states that no step chooses, and support that no step needs.
fn add_unused(
    rng: &mut Rng,
    states: &mut Vec<[i64; 4]>,
    room: usize,
    directions: usize,
    arcs: usize,
) {
    let all = (1 << arcs) - 1;
    while states.len() < room && rng.flip() {
        let on = rng.part_of(all);
        states.push([0, on, rng.part_of(all & !on), rng.skewed(0..=MOST_WEIGHT)]);
    }
    for state in states {
        state[DIRECTIONS] |= rng.part_of((1 << directions) - 1);
    }
}

fn finish(rng: &mut Rng, its: &DraftStation, states: Vec<[i64; 4]>) -> Station {
    Station {
        direction_at_0: rng.below(its.directions.len()),
        state_at_0: rng.below(states.len()),
        directions: its.directions.clone(),
        states,
        machines: its.machines.clone(),
    }
}
