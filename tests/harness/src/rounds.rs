//! Rounds: an accepted pair from a seed, and everything that is made from it.

use inputs::aimed::{AIMS, LEDGER_AIMS};
use inputs::bytes::{BYTES_AIMS, encode, on_plan_bytes};
use inputs::damage::{any_list, damage_bytes, damage_list};
use inputs::generate::{self, Size};
use inputs::{Pair, Rng};

use crate::beside::{Beside, Difference, Reply};
use crate::tally::STRINGS;
use crate::{demand_3, files};

/// Above this many numbers only some of the changes are made.
const LARGE: usize = 6_000;

/// Damaged lists and damaged strings of each round.
const DAMAGED: usize = 24;

/// A pair with its lists.
struct Input {
    pair: Pair,
    case: Vec<i64>,
    plan: Vec<i64>,
    /// How many of the changes are left out.
    spared: usize,
}

/// One round in so many goes through files, which is slow where a program is run.
const FILES_IN: usize = 16;

/// One seed in so many has a pair of the largest size.
const LARGEST_IN: u64 = 256;

/// Everything that is made from one seed.
pub fn round(beside: &mut Beside, seed: u64) -> Result<(), Difference> {
    beside.begin(seed);
    let mut rng = Rng::new(seed);
    let pair = match seed % LARGEST_IN {
        0 => generate::of_size(&mut rng, Size::LARGEST),
        _ => generate::accepted(&mut rng),
    };
    pair_round(beside, &mut rng, pair)
}

/// An accepted pair in files, as a round has them now and then.
pub fn files_round(beside: &mut Beside, seed: u64) -> Result<(), Difference> {
    beside.begin(seed);
    let mut rng = Rng::new(seed);
    let pair = generate::accepted(&mut rng);
    let strings = [pair.case.list(), pair.plan.list()].map(|list| encode(&list).bytes);
    beside.input = "files";
    files::round(beside, &mut rng, [&strings[0], &strings[1]])
}

/// Everything that is made from one accepted pair.
fn pair_round(beside: &mut Beside, rng: &mut Rng, pair: Pair) -> Result<(), Difference> {
    let (case, plan) = (pair.case.list(), pair.plan.list());
    let spared = if plan.len() > LARGE { 9 } else { 0 };
    let input = Input {
        pair,
        case,
        plan,
        spared,
    };
    accepted(beside, &input)?;
    ledgers(beside, rng, &input)?;
    aims(beside, rng, &input)?;
    damaged_lists(beside, rng, &input)?;
    strings(beside, rng, &input)?;
    damaged_strings(beside, rng, &input)
}

impl Input {
    /// Is this change made? Of a large pair only one in ten is.
    fn is_due(&self, rng: &mut Rng) -> bool {
        rng.once_in(1 + self.spared)
    }
}

fn must_be_accepted(reply: &Reply, what: &str) -> Result<(), Difference> {
    if reply.answer == 0 {
        return Ok(());
    }
    Err(Difference {
        text: format!("{what} was to be accepted; the second checker says {reply:?}"),
    })
}

fn accepted(beside: &mut Beside, input: &Input) -> Result<(), Difference> {
    beside.input = "an accepted pair";
    let reply = beside.case(&input.case)?;
    must_be_accepted(&reply, "the case")?;
    let reply = beside.plan(&input.case, &input.plan)?;
    must_be_accepted(&reply, "the plan")
}

/// Random sets and steps, held against demand 3, and sets and steps that are refused.
fn ledgers(beside: &mut Beside, rng: &mut Rng, input: &Input) -> Result<(), Difference> {
    let lists = [input.case.as_slice(), input.plan.as_slice()];
    let steps = input.pair.steps() as i64;
    beside.input = "a region of an accepted pair";
    for _ in 0..4 {
        let set = rng.part_of((1 << input.pair.case.nodes.len()) - 1);
        let s = rng.within(0..=steps);
        let t = rng.within(s..=steps);
        let reply = beside.ledger(lists, set, s, t)?;
        must_be_accepted(&reply, "the ledger")?;
        demand_3::check(&input.pair.case, s, t, &reply.out[..6]).map_err(|wrong| Difference {
            text: format!("set {set}, {s} to {t}: {wrong}\n{lists:?}"),
        })?;
    }
    for (name, aim) in LEDGER_AIMS {
        if let Some(aimed) = aim(rng, &input.pair) {
            beside.input = name;
            let reply = beside.ledger(lists, aimed.set, aimed.s, aimed.t)?;
            reply.expect(aimed.expect, name)?;
            beside.tally.aim(name);
        }
    }
    Ok(())
}

/// Every aimed change alone, and pairs of them at once, which show the order of questions.
fn aims(beside: &mut Beside, rng: &mut Rng, input: &Input) -> Result<(), Difference> {
    let mut made = Vec::new();
    for (name, aim) in AIMS {
        if !input.is_due(rng) {
            continue;
        }
        let Some(aimed) = aim(rng, &input.pair) else {
            continue;
        };
        beside.input = name;
        let reply = beside.plan(&aimed.case, &aimed.plan)?;
        reply.expect(aimed.expect, name)?;
        beside.tally.aim(name);
        beside.case(&aimed.case)?;
        if rng.once_in(8) {
            // Refused before the set is looked at.
            let reply = beside.ledger([&aimed.case, &aimed.plan], rng.bits() as i64, 0, 1)?;
            reply.expect(aimed.expect, name)?;
        }
        made.push(aimed);
    }
    beside.input = "two changes at once";
    for _ in 0..made.len() {
        let [one, other] = [0; 2].map(|_| &made[rng.below(made.len())]);
        let case = overlay(&input.case, &one.case, &other.case);
        let plan = overlay(&input.plan, &one.plan, &other.plan);
        beside.plan(&case, &plan)?;
    }
    Ok(())
}

/// Both changes of a list at once; where its length changed, one of them.
fn overlay(before: &[i64], one: &[i64], other: &[i64]) -> Vec<i64> {
    if before.len() != one.len() || before.len() != other.len() {
        return one.to_vec();
    }
    let merge = |((&before, &one), &other)| if one == before { other } else { one };
    before.iter().zip(one).zip(other).map(merge).collect()
}

fn damaged_lists(beside: &mut Beside, rng: &mut Rng, input: &Input) -> Result<(), Difference> {
    beside.input = "damaged lists";
    for _ in 0..DAMAGED {
        if !input.is_due(rng) {
            continue;
        }
        let (mut case, mut plan) = (input.case.clone(), input.plan.clone());
        match rng.below(8) {
            0 => case = any_list(rng, 40),
            1 => plan = any_list(rng, 40),
            2 | 3 => damage_list(rng, &mut case),
            4 => {
                damage_list(rng, &mut case);
                damage_list(rng, &mut plan);
            }
            _ => damage_list(rng, &mut plan),
        }
        let reply = beside.plan(&case, &plan)?;
        beside.case(&case)?;
        if rng.once_in(4) || reply.answer == 0 {
            beside.ledger([&case, &plan], rng.bits() as i64 & 7, 0, 1)?;
        }
    }
    Ok(())
}

/// Byte strings that are accepted, and such that are refused while they are read.
fn strings(beside: &mut Beside, rng: &mut Rng, input: &Input) -> Result<(), Difference> {
    let (case, plan) = (encode(&input.case).bytes, encode(&input.plan).bytes);
    let rooms = [input.case.len(), input.plan.len()];
    beside.input = "an accepted pair as bytes";
    for more in [0, rng.below(5)] {
        let reply = beside.bytes([&case, &plan], rooms.map(|room| room + more))?;
        must_be_accepted(&reply, "the pair of strings")?;
    }
    beside.write(&input.plan, plan.len())?;
    for (name, aim) in BYTES_AIMS {
        if !input.is_due(rng) {
            continue;
        }
        beside.input = name;
        if let Some(aimed) = aim(rng, &input.case) {
            let reply = beside.bytes([&aimed.bytes, &plan], [aimed.room, rooms[1]])?;
            reply.expect(aimed.expect, name)?;
            beside.tally.aim_in(name, STRINGS[0]);
        }
        if let Some(aimed) = aim(rng, &input.plan) {
            let reply = beside.bytes([&case, &aimed.bytes], [rooms[0], aimed.room])?;
            reply.expect(on_plan_bytes(aimed.expect), name)?;
            beside.tally.aim_in(name, STRINGS[1]);
        }
    }
    if rng.once_in(FILES_IN) {
        beside.input = "files";
        files::round(beside, rng, [&case, &plan])?;
    }
    Ok(())
}

fn damaged_strings(beside: &mut Beside, rng: &mut Rng, input: &Input) -> Result<(), Difference> {
    beside.input = "damaged bytes";
    let (case, plan) = (encode(&input.case).bytes, encode(&input.plan).bytes);
    for _ in 0..DAMAGED {
        if !input.is_due(rng) {
            continue;
        }
        let mut strings = [case.clone(), plan.clone()];
        let mut rooms = [input.case.len(), input.plan.len()];
        let hit = rng.below(2);
        match rng.below(4) {
            0 => rooms[hit] = rng.below(rooms[hit] + 2),
            _ => damage_bytes(rng, &mut strings[hit]),
        }
        let [case, plan] = &strings;
        beside.bytes([case, plan], rooms.map(|room| room + rng.below(2)))?;
        beside.read(&strings[hit], rooms[hit])?;
    }
    Ok(())
}
