//! Aimed changes of two meters' records: 60, 61 and 62. What is asked later is spoilt, too, in every second one.

use super::refused;
use crate::damage::any_number;
use crate::model::Refused;
use crate::records::{GRAMS, MOST_GRAMS, MOST_ROWS, Records, Row, TIME, list};
use crate::rng::Rng;

/// Two records and an agreed figure with the first "no" they are to end in.
pub struct SettleInput {
    pub sender: Vec<i64>,
    pub receiver: Vec<i64>,
    pub agreed: i64,
    pub expect: Refused,
}

pub type SettleAim = fn(&mut Rng, &Records) -> Option<SettleInput>;

pub const SETTLE_AIMS: &[(&str, SettleAim)] = &[
    ("60 number without a row", aim_60_half_a_row),
    ("60 more than 5,000 rows", aim_60_rows),
    ("60 agreed figure", aim_60_agreed),
    ("61 time below 0", aim_61_below_0),
    ("61 time as in the row before", aim_61_equal),
    ("61 time below the row before", aim_61_falling),
    ("62 mass below 0", aim_62_below_0),
    ("62 mass above 10^12", aim_62_above),
];

/// More than 5,000 rows are made once in so many times: they take long.
const LONG_IN: usize = 8;

/// The rows of both records, the sender's first, and which of them is hit.
struct Hit {
    records: [Vec<Row>; 2],
    hit: usize,
    agreed: i64,
}

fn any_hit(rng: &mut Rng, records: &Records) -> Hit {
    Hit {
        records: [records.sender.clone(), records.receiver.clone()],
        hit: rng.below(2),
        agreed: records.agreed,
    }
}

/// Numbers of any size in one column of some of the rows.
fn spoil(rng: &mut Rng, rows: &mut [Row], column: usize) {
    for row in rows {
        if rng.once_in(3) {
            row[column] = any_number(rng);
        }
    }
}

impl Hit {
    fn rows(&mut self) -> &mut Vec<Row> {
        &mut self.records[self.hit]
    }

    /// A row of the record that is hit, from this one on; the first of them and the last come often.
    fn row_from(&mut self, rng: &mut Rng, first: usize) -> Option<usize> {
        let count = self.rows().len().saturating_sub(first);
        let last = count.checked_sub(1)?;
        Some(first + [0, last, rng.below(count)][rng.below(3)])
    }

    fn spoil_all(&mut self, rng: &mut Rng, column: usize) {
        for rows in &mut self.records {
            spoil(rng, rows, column);
        }
    }

    /// The rows of the column that are asked after this one.
    fn spoil_later(&mut self, rng: &mut Rng, column: usize, row: usize) {
        spoil(rng, &mut self.rows()[row + 1..], column);
        if self.hit == 0 {
            spoil(rng, &mut self.records[1], column);
        }
    }

    fn refused(self, number: u8, row: usize) -> SettleInput {
        let [sender, receiver] = self.records.map(|rows| list(&rows));
        SettleInput {
            sender,
            receiver,
            agreed: self.agreed,
            expect: refused(number, 0, row),
        }
    }

    fn refused_by_60(mut self, rng: &mut Rng) -> SettleInput {
        if rng.flip() {
            self.spoil_all(rng, TIME);
            self.spoil_all(rng, GRAMS);
        }
        self.refused(60, 0)
    }

    fn with_time(mut self, rng: &mut Rng, row: usize, time: i64) -> SettleInput {
        self.rows()[row][TIME] = time;
        if rng.flip() {
            self.spoil_later(rng, TIME, row);
            self.spoil_all(rng, GRAMS);
        }
        self.refused(61, row)
    }

    fn with_mass(mut self, rng: &mut Rng, row: usize, grams: i64) -> SettleInput {
        self.rows()[row][GRAMS] = grams;
        if rng.flip() {
            self.spoil_later(rng, GRAMS, row);
        }
        self.refused(62, row)
    }
}

/// A number more, or the last one gone.
fn aim_60_half_a_row(rng: &mut Rng, records: &Records) -> Option<SettleInput> {
    let hit = any_hit(rng, records);
    let is_sender_s = hit.hit == 0;
    let mut input = hit.refused_by_60(rng);
    let list = match is_sender_s {
        true => &mut input.sender,
        false => &mut input.receiver,
    };
    if rng.flip() || list.pop().is_none() {
        list.push(any_number(rng));
    }
    Some(input)
}

fn aim_60_rows(rng: &mut Rng, records: &Records) -> Option<SettleInput> {
    let mut hit = any_hit(rng, records);
    let count = MOST_ROWS + 1 + rng.below(2);
    let is_due = rng.once_in(LONG_IN);
    *hit.rows() = (0..count as i64).map(|time| [time, 0]).collect();
    is_due.then(|| hit.refused_by_60(rng))
}

fn aim_60_agreed(rng: &mut Rng, records: &Records) -> Option<SettleInput> {
    let mut hit = any_hit(rng, records);
    hit.agreed = outside(rng);
    Some(hit.refused_by_60(rng))
}

/// Neither a mass nor an agreed figure.
fn outside(rng: &mut Rng) -> i64 {
    if rng.flip() { below_0(rng) } else { above(rng) }
}

fn below_0(rng: &mut Rng) -> i64 {
    [-1, i64::MIN, rng.within(i64::MIN..=-1)][rng.below(3)]
}

fn above(rng: &mut Rng) -> i64 {
    let least = MOST_GRAMS + 1;
    [least, i64::MAX, rng.within(least..=i64::MAX)][rng.below(3)]
}

fn aim_61_below_0(rng: &mut Rng, records: &Records) -> Option<SettleInput> {
    let mut hit = any_hit(rng, records);
    let time = below_0(rng);
    (!hit.rows().is_empty()).then(|| hit.with_time(rng, 0, time))
}

fn aim_61_equal(rng: &mut Rng, records: &Records) -> Option<SettleInput> {
    let mut hit = any_hit(rng, records);
    let row = hit.row_from(rng, 1)?;
    let before = hit.rows()[row - 1][TIME];
    Some(hit.with_time(rng, row, before))
}

fn aim_61_falling(rng: &mut Rng, records: &Records) -> Option<SettleInput> {
    let mut hit = any_hit(rng, records);
    let row = hit.row_from(rng, 1)?;
    let below = hit.rows()[row - 1][TIME] - 1;
    let time = [below, rng.within(0..=below), -1, i64::MIN][rng.below(4)];
    // Where the row before is at 0, the range from 0 is empty.
    Some(hit.with_time(rng, row, time.min(below)))
}

fn aim_62_below_0(rng: &mut Rng, records: &Records) -> Option<SettleInput> {
    let mut hit = any_hit(rng, records);
    let row = hit.row_from(rng, 0)?;
    let grams = below_0(rng);
    Some(hit.with_mass(rng, row, grams))
}

fn aim_62_above(rng: &mut Rng, records: &Records) -> Option<SettleInput> {
    let mut hit = any_hit(rng, records);
    let row = hit.row_from(rng, 0)?;
    let grams = above(rng);
    Some(hit.with_mass(rng, row, grams))
}
