//! Rounds of settlements: records from a seed, and everything that is made from them.

use inputs::Rng;
use inputs::aimed::SETTLE_AIMS;
use inputs::damage::{any_list, any_number, damage_list};
use inputs::records::{Records, list, settling};

use crate::beside::{Beside, Difference, Reply};

/// Damaged records of each round.
const DAMAGED: usize = 8;

/// Everything that is made from one seed.
pub fn round(beside: &mut Beside, seed: u64) -> Result<(), Difference> {
    beside.begin(seed);
    let mut rng = Rng::new(seed);
    let records = settling(&mut rng);
    settled(beside, &records)?;
    aims(beside, &mut rng, &records)?;
    damaged(beside, &mut rng, &records)
}

/// Both ways round, and each record with itself.
fn settled(beside: &mut Beside, records: &Records) -> Result<(), Difference> {
    let [sender, receiver] = [&records.sender, &records.receiver].map(|rows| list(rows));
    beside.input = "records that settle";
    for lists in [[&sender, &receiver], [&receiver, &sender]] {
        let reply = beside.settle(lists.map(Vec::as_slice), records.agreed)?;
        every_row_counts_once(&reply, lists.map(|list| list.len() / 2))?;
    }
    beside.input = "a record with itself";
    for record in [&sender, &receiver] {
        let reply = beside.settle([record, record], records.agreed)?;
        let total = record.iter().skip(1).step_by(2).sum();
        is(&reply, [total, record.len() as i64 / 2, 0, 0, 0])?;
    }
    Ok(())
}

fn is(reply: &Reply, figures: [i64; 5]) -> Result<(), Difference> {
    if reply.answer == 0 && reply.out.starts_with(&figures) {
        return Ok(());
    }
    Err(Difference {
        text: format!("the figures were to be {figures:?}; the second checker says {reply:?}"),
    })
}

/// The rows of each record are those in both, which count once for the two, and those in it alone.
fn every_row_counts_once(reply: &Reply, rows: [usize; 2]) -> Result<(), Difference> {
    let counts = [3, 4].map(|only| reply.out[1] + reply.out[2] + reply.out[only]);
    if reply.answer == 0 && counts == rows.map(|count| count as i64) {
        return Ok(());
    }
    Err(Difference {
        text: format!("{rows:?} rows were to settle; the second checker says {reply:?}"),
    })
}

fn aims(beside: &mut Beside, rng: &mut Rng, records: &Records) -> Result<(), Difference> {
    for (name, aim) in SETTLE_AIMS {
        if let Some(aimed) = aim(rng, records) {
            beside.input = name;
            let reply = beside.settle([&aimed.sender, &aimed.receiver], aimed.agreed)?;
            reply.expect(aimed.expect, name)?;
            beside.tally.aim(name);
        }
    }
    Ok(())
}

fn damaged(beside: &mut Beside, rng: &mut Rng, records: &Records) -> Result<(), Difference> {
    beside.input = "damaged records";
    for _ in 0..DAMAGED {
        let mut lists = [list(&records.sender), list(&records.receiver)];
        let mut agreed = records.agreed;
        let hit = rng.below(2);
        match rng.below(8) {
            0 => lists[hit] = any_list(rng, 8),
            1 => agreed = any_number(rng),
            2 => lists.iter_mut().for_each(|list| damage_list(rng, list)),
            _ => damage_list(rng, &mut lists[hit]),
        }
        beside.settle([&lists[0], &lists[1]], agreed)?;
    }
    Ok(())
}
