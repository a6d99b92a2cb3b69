//! The settlement of two meters' records: the questions 60 to 62 and five figures.

use std::collections::BTreeMap;

use crate::verdict::{Answer, ask};
use crate::wide;

/// The most rows of a record.
pub const MOST_ROWS: usize = 5_000;

/// The most grams of a row, and of the agreed figure.
pub const MOST_GRAMS: i64 = 1_000_000_000_000;

/// The settled total in grams, and how many rows were settled in each way, a matched pair as one.
#[derive(Clone, Copy, Debug, Default, PartialEq, Eq)]
pub struct Settlement {
    pub total: i128,
    pub agreed: i128,
    pub cut: i128,
    pub only_sender: i128,
    pub only_receiver: i128,
}

impl Settlement {
    /// The five figures in the document's order.
    pub fn figures(&self) -> [i128; 5] {
        [
            self.total,
            self.agreed,
            self.cut,
            self.only_sender,
            self.only_receiver,
        ]
    }
}

/// Settles the sender's record with the receiver's.
pub fn settle(sender: &[i64], receiver: &[i64], agreed: i64) -> Answer<Settlement> {
    asked(sender, receiver, agreed)?;
    Ok(settled(sender, receiver, wide(agreed)))
}

/// Every question, each of the sender's record before the receiver's.
pub(crate) fn asked(sender: &[i64], receiver: &[i64], agreed: i64) -> Answer<()> {
    let records = [sender, receiver];
    records.into_iter().try_for_each(rule_60_rows_are_whole)?;
    rule_60_agreed_in_range(agreed)?;
    records.into_iter().try_for_each(rule_61_times_rise)?;
    records.into_iter().try_for_each(rule_62_masses_in_range)
}

/// Time and grams of each row.
fn rows(record: &[i64]) -> impl Iterator<Item = (i64, i64)> {
    record.chunks(2).map(|row| (row[0], row[1]))
}

fn rule_60_rows_are_whole(record: &[i64]) -> Answer<()> {
    let are_whole = record.len().is_multiple_of(2);
    ask(60, are_whole && record.len() / 2 <= MOST_ROWS, 0, 0)
}

fn rule_60_agreed_in_range(agreed: i64) -> Answer<()> {
    ask(60, (0..=MOST_GRAMS).contains(&agreed), 0, 0)
}

/// The first time is above -1, each other above the one before.
fn rule_61_times_rise(record: &[i64]) -> Answer<()> {
    let mut before = -1;
    for (row, (time, _)) in rows(record).enumerate() {
        ask(61, before < time, 0, row)?;
        before = time;
    }
    Ok(())
}

fn rule_62_masses_in_range(record: &[i64]) -> Answer<()> {
    let mut all = rows(record).enumerate();
    all.try_for_each(|(row, (_, grams))| ask(62, (0..=MOST_GRAMS).contains(&grams), 0, row))
}

/// Takes each time of the sender's out of the receiver's record; what is left there is the receiver's alone.
fn settled(sender: &[i64], receiver: &[i64], agreed: i128) -> Settlement {
    let mut settlement = Settlement::default();
    let mut received: BTreeMap<i64, i128> = rows(receiver)
        .map(|(time, grams)| (time, wide(grams)))
        .collect();
    for (time, grams) in rows(sender) {
        let sent = wide(grams);
        let (ways, stands) = match received.remove(&time) {
            None => (&mut settlement.only_sender, sent),
            Some(other) if (sent - other).abs() <= agreed => (&mut settlement.agreed, sent),
            Some(other) => (&mut settlement.cut, sent.min(other)),
        };
        *ways += 1;
        settlement.total += stands;
    }
    settlement.only_receiver = received.len() as i128;
    settlement.total += received.values().sum::<i128>();
    settlement
}
