//! Every row with the way it was settled. These are the tool's own sums: they are held to the library's figures.

use std::collections::BTreeMap;

use explain::check::wide;
use gasplan::Settlement;

use crate::records::Records;

#[derive(Clone, Copy, Debug, PartialEq, Eq)]
pub enum Way {
    Agreed,
    Cut,
    OnlySender,
    OnlyReceiver,
}

impl Way {
    pub fn words(self) -> &'static str {
        match self {
            Way::Agreed => "agreed",
            Way::Cut => "cut",
            Way::OnlySender => "only sender",
            Way::OnlyReceiver => "only receiver",
        }
    }
}

/// A time with what the two records say of it; one of them at least says something.
#[derive(Clone, Copy, Debug, PartialEq, Eq)]
pub struct Row {
    pub time: i64,
    pub sender: Option<i64>,
    pub receiver: Option<i64>,
    pub stands: i64,
    pub way: Way,
}

impl Row {
    /// The sender's mass less the receiver's.
    pub fn difference(&self) -> Option<i128> {
        Some(wide(self.sender?) - wide(self.receiver?))
    }
}

/// Every time of two records that were settled, the earliest first.
pub fn rows(records: &Records, agreed: i64) -> Vec<Row> {
    let mut masses: BTreeMap<i64, [Option<i64>; 2]> = BTreeMap::new();
    for (at, record) in records.both().into_iter().enumerate() {
        for (time, grams) in record.rows() {
            masses.entry(time).or_default()[at] = Some(grams);
        }
    }
    let row = |(time, masses)| settled(time, masses, agreed);
    masses.into_iter().filter_map(row).collect()
}

fn settled(time: i64, [sender, receiver]: [Option<i64>; 2], agreed: i64) -> Option<Row> {
    let (stands, way) = match (sender, receiver) {
        (Some(sent), Some(received)) => match (wide(sent) - wide(received)).abs() <= wide(agreed) {
            true => (sent, Way::Agreed),
            false => (sent.min(received), Way::Cut),
        },
        (Some(sent), None) => (sent, Way::OnlySender),
        (None, Some(received)) => (received, Way::OnlyReceiver),
        (None, None) => return None,
    };
    Some(Row {
        time,
        sender,
        receiver,
        stands,
        way,
    })
}

/// Do the rows add up to the figures?
pub fn add_up(rows: &[Row], figures: &Settlement) -> Result<(), String> {
    let total: i128 = rows.iter().map(|row| wide(row.stands)).sum();
    let count = |way| rows.iter().filter(|row| row.way == way).count();
    let ways = [Way::Agreed, Way::Cut, Way::OnlySender, Way::OnlyReceiver].map(count);
    let [agreed, cut, sender, receiver] = ways;
    let sums = format!("settled {total} {agreed} {cut} {sender} {receiver}");
    match sums == figures.to_string() {
        true => Ok(()),
        false => Err(format!(
            "no verdict: the library says `{figures}`, and the rows add up to `{sums}`"
        )),
    }
}
