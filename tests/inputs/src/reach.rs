//! What the machines of a compressing arc reach: 26, and what it would be with p0 of the in end.

use crate::model::{Pair, named};

/// 1,000 × out less p of the in end in the same step × ratio: above 0 where 26 says "no". None if the arc is not compressing.
pub fn overreach(pair: &Pair, step: usize, arc: usize) -> Option<i64> {
    past(pair, step, arc, step)
}

/// The same with p0 of the in end, as document 01 had it before P1 of document 02.
pub fn overreach_from_p0(pair: &Pair, step: usize, arc: usize) -> Option<i64> {
    past(pair, step, arc, 0)
}

/// 1,000 × out less the pressure that the in end has at the time of step `held` × ratio.
fn past(pair: &Pair, step: usize, arc: usize, held: usize) -> Option<i64> {
    let out = pair.compressed(step, arc)?;
    let (in_end, _) = pair.ends(step, arc);
    Some(1_000 * out - pair.pressure(held, in_end) * ratio(pair, step, arc))
}

/// 1,000 and what the machines add to it, in thousandths.
pub fn ratio(pair: &Pair, step: usize, arc: usize) -> i64 {
    let gains = named_machines(pair, step, arc).map(|[_, ratio]| ratio - 1_000);
    1_000 + gains.sum::<i64>()
}

/// Flow Q and ratio R of the machines that the arc's row names.
pub fn named_machines(pair: &Pair, step: usize, arc: usize) -> impl Iterator<Item = [i64; 2]> {
    let set = pair.arc(step, arc).machines;
    let station = pair.case.arcs[arc].station();
    let machines = station.map(|it| pair.case.stations[it].machines.as_slice());
    named(machines.unwrap_or_default(), set)
}

/// Takes machines away, the lowest first, until the others don't reach the out pressure; none if it is reached with no machine on.
pub fn take_machines(pair: &mut Pair, step: usize, arc: usize) -> Option<()> {
    while overreach(pair, step, arc)? <= 0 {
        let row = pair.arc_mut(step, arc);
        if row.machines == 0 {
            return None;
        }
        row.machines &= row.machines - 1;
    }
    Some(())
}
