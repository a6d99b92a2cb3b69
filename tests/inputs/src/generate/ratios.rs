//! Ratios of machines: what a set of them adds up to, and how little the plan can do with.

use super::Draft;
use super::finish::around;
use crate::model::named;
use crate::rng::Rng;

/// The least ratio that a machine may have.
const LEAST: i64 = 1_001;

/// 1,000 and what each machine of the set adds, in thousandths.
pub fn ratio(draft: &Draft, index: usize, set: i64) -> i64 {
    let station = draft.arcs[index].arc.station();
    let machines = station.map(|it| draft.stations[it].machines.as_slice());
    let gains = named(machines.unwrap_or_default(), set).map(|[_, ratio]| ratio - 1_000);
    1_000 + gains.sum::<i64>()
}

/// Lowers ratios of machines that run, one after the other, often to the least with which 26 still holds.
pub fn lower(rng: &mut Rng, draft: &mut Draft) {
    let machines = |station: usize| {
        let machines = 0..draft.stations[station].machines.len();
        machines.map(move |machine| (station, machine))
    };
    let all: Vec<(usize, usize)> = (0..draft.stations.len()).flat_map(machines).collect();
    for (station, machine) in all {
        if let Some(least) = least_ratio(draft, station, machine) {
            let [_, ratio] = &mut draft.stations[station].machines[machine];
            *ratio = around(rng, least, *ratio);
        }
    }
}

/// The least ratio of this machine with which every row that names it passes 26; none if no row does.
fn least_ratio(draft: &Draft, station: usize, machine: usize) -> Option<i64> {
    let arcs =
        (0..draft.arcs.len()).filter(|&index| draft.arcs[index].arc.station() == Some(station));
    let rows = arcs.flat_map(|index| (1..=draft.steps()).map(move |step| (step, index)));
    let named =
        rows.filter(|&(step, index)| draft.arcs[index].rows[step].machines >> machine & 1 == 1);
    named
        .map(|(step, index)| needed(draft, step, index, machine))
        .max()
}

/// What this row asks of the machine beside the others that it names.
fn needed(draft: &Draft, step: usize, index: usize, machine: usize) -> i64 {
    let row = draft.arcs[index].rows[step];
    let (in_end, out_end) = draft.arcs[index].arc.ends(row.setting);
    let (p_in, p_out) = (draft.p[step][in_end], draft.p[step][out_end]);
    if p_in == 0 {
        return LEAST;
    }
    let whole = (1_000 * p_out + p_in - 1) / p_in;
    let others = ratio(draft, index, row.machines & !(1 << machine));
    (1_000 + whole - others).max(LEAST)
}
