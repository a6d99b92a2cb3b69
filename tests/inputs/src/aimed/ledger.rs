//! Aimed sets and steps of a ledger: 40 and 41.

use super::refused;
use crate::model::{Pair, Refused};
use crate::rng::Rng;

/// A node set and two steps with the first "no" they are to end in.
pub struct LedgerInput {
    pub set: i64,
    pub s: i64,
    pub t: i64,
    pub expect: Refused,
}

pub type LedgerAim = fn(&mut Rng, &Pair) -> Option<LedgerInput>;

pub const LEDGER_AIMS: &[(&str, LedgerAim)] = &[
    ("40 stranger in the set", aim_40_stranger),
    ("40 number that is no set", aim_40_no_set),
    ("41 steps", aim_41),
];

/// A set of the case's nodes.
fn some_nodes(rng: &mut Rng, pair: &Pair) -> i64 {
    rng.part_of((1 << pair.case.nodes.len()) - 1)
}

/// Two numbers that are steps in order, or not.
fn some_steps(rng: &mut Rng, pair: &Pair) -> (i64, i64) {
    let steps = pair.steps() as i64;
    (rng.within(-1..=steps), rng.within(0..=steps + 1))
}

fn aim_40_stranger(rng: &mut Rng, pair: &Pair) -> Option<LedgerInput> {
    let nodes = pair.case.nodes.len();
    let stranger = (nodes < 60).then(|| rng.skewed(nodes as i64..=59))?;
    let above = ((1 << 60) - 1) & !((2 << stranger) - 1);
    let set = some_nodes(rng, pair) | 1 << stranger | rng.part_of(above);
    let (s, t) = some_steps(rng, pair);
    Some(LedgerInput {
        set,
        s,
        t,
        expect: refused(40, 0, stranger as usize),
    })
}

fn aim_40_no_set(rng: &mut Rng, pair: &Pair) -> Option<LedgerInput> {
    let outside = [-1, 1 << 60, i64::MIN, i64::MAX, rng.within(i64::MIN..=-1)];
    let (s, t) = some_steps(rng, pair);
    Some(LedgerInput {
        set: rng.pick(&outside)?,
        s,
        t,
        expect: refused(40, 0, 0),
    })
}

fn aim_41(rng: &mut Rng, pair: &Pair) -> Option<LedgerInput> {
    let steps = pair.steps() as i64;
    let inside = rng.within(0..=steps);
    let wrong = [
        (-1, inside),
        (inside, steps + 1),
        (inside + 1, inside),
        (i64::MIN, inside),
        (inside, i64::MAX),
        (i64::MAX, i64::MIN),
    ];
    let (s, t) = rng.pick(&wrong)?;
    Some(LedgerInput {
        set: some_nodes(rng, pair),
        s,
        t,
        expect: refused(41, 0, 0),
    })
}
