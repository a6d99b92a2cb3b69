//! Settings and machines that the pressures allow.

use super::ratios::ratio;
use super::{Draft, DraftArc};
use crate::model::{ArcRow, BOTH_WAYS, COMBINED, MACHINES, SHORTCUT, VALVE};
use crate::rng::Rng;

pub fn draw(rng: &mut Rng, draft: &mut Draft) {
    for step in 1..=draft.steps() {
        for index in 0..draft.arcs.len() {
            if draft.arcs[index].arc.kind == VALVE {
                let row = valve_row(rng, draft, index, step);
                draft.arcs[index].rows[step] = row;
            }
        }
        for station in 0..draft.stations.len() {
            draw_station(rng, draft, station, step);
        }
    }
}

fn valve_row(rng: &mut Rng, draft: &Draft, index: usize, step: usize) -> ArcRow {
    let arc = &draft.arcs[index].arc;
    let level = draft.p[step][arc.from] == draft.p[step][arc.to];
    ArcRow {
        setting: i64::from(level && rng.below(4) > 0),
        ..ArcRow::default()
    }
}

/// Settles a station's arcs in random order; a machine that is taken is no longer free.
fn draw_station(rng: &mut Rng, draft: &mut Draft, station: usize, step: usize) {
    let mut free = (1 << draft.stations[station].machines.len()) - 1;
    let mut arcs: Vec<usize> = (0..draft.arcs.len())
        .filter(|&index| draft.arcs[index].arc.station() == Some(station))
        .collect();
    rng.shuffle(&mut arcs);
    for index in arcs {
        let (setting, machines) = choose(rng, draft, index, step, free);
        let row = &mut draft.arcs[index].rows[step];
        (row.setting, row.machines) = (setting, machines);
        free &= !machines;
    }
}

/// Mostly the setting of the step before, if it still holds.
fn choose(rng: &mut Rng, draft: &Draft, index: usize, step: usize, free: i64) -> (i64, i64) {
    let it = &draft.arcs[index];
    let before = it.rows[step - 1].setting;
    let mut settings = known_settings(it);
    rng.shuffle(&mut settings);
    if step > 1 && rng.below(5) < 3 {
        settings.insert(0, before);
    } else if rng.once_in(6) {
        settings.insert(0, 0);
    }
    let found = settings.into_iter().find_map(|setting| {
        let machines = machines_for(rng, draft, index, step, setting, free)?;
        Some((setting, machines))
    });
    found.unwrap_or((0, 0))
}

/// The active settings of the arc's kind; a one-way arc has no even ones.
fn known_settings(it: &DraftArc) -> Vec<i64> {
    let last = if it.arc.kind == COMBINED { 4 } else { 2 };
    let both_ways = it.arc.more[BOTH_WAYS] == 1;
    (1..=last)
        .filter(|setting| both_ways || setting % 2 == 1)
        .collect()
}

/// A machine set with which this setting passes 26; none if there is none.
fn machines_for(
    rng: &mut Rng,
    draft: &Draft,
    index: usize,
    step: usize,
    setting: i64,
    free: i64,
) -> Option<i64> {
    let arc = &draft.arcs[index].arc;
    let (in_end, out_end) = arc.ends(setting);
    let (p_in, p_out) = (draft.p[step][in_end], draft.p[step][out_end]);
    if setting == 0 {
        return Some(0);
    }
    if !arc.compresses(setting) {
        let allowed = match arc.kind {
            SHORTCUT => p_in == p_out,
            _ => p_in >= p_out,
        };
        return allowed.then_some(0);
    }
    let usable = arc.more[MACHINES] & free;
    let few = usable & rng.bits() as i64 & rng.bits() as i64;
    let tries = [few, rng.part_of(usable), usable];
    let reaches = |set| p_in <= p_out && 1_000 * p_out <= p_in * ratio(draft, index, set);
    let found = tries.into_iter().find(|&set| reaches(set))?;
    Some(if rng.once_in(3) {
        spare(found, reaches)
    } else {
        found
    })
}

/// The set without machines that it can spare, the lowest first.
fn spare(set: i64, reaches: impl Fn(i64) -> bool) -> i64 {
    (0..12).fold(set, |kept, machine| {
        let fewer = kept & !(1 << machine);
        if reaches(fewer) { fewer } else { kept }
    })
}
