//! The records of two meters, from a seed: they are built so that they must settle.

use crate::rng::Rng;

/// End time in seconds, and grams.
pub type Row = [i64; 2];

/// The places of a row's numbers.
pub const TIME: usize = 0;
pub const GRAMS: usize = 1;

/// The most rows of a record.
pub const MOST_ROWS: usize = 5_000;

/// The most grams of a row, and of the agreed figure.
pub const MOST_GRAMS: i64 = 1_000_000_000_000;

/// The rows of the sender's record and of the receiver's, and the agreed figure.
#[derive(Clone, Debug, PartialEq, Eq)]
pub struct Records {
    pub sender: Vec<Row>,
    pub receiver: Vec<Row>,
    pub agreed: i64,
}

/// The rows as a list of numbers.
pub fn list(rows: &[Row]) -> Vec<i64> {
    rows.as_flattened().to_vec()
}

/// Which record has a time.
#[derive(Clone, Copy, PartialEq, Eq)]
enum Whose {
    Sender,
    Receiver,
    Both,
}

use Whose::{Both, Receiver, Sender};

/// Records of any lengths and in any relation, most of them short.
pub fn settling(rng: &mut Rng) -> Records {
    let whose = match rng.below(5) {
        0 => vec![Both; count(rng, MOST_ROWS)],
        1 => one_after_the_other(rng),
        2 => shuffled(rng, [Sender, Receiver], MOST_ROWS),
        3 => one_within_the_other(rng),
        // Each record has at most two of the three.
        _ => shuffled(rng, [Sender, Receiver, Both], MOST_ROWS / 2),
    };
    let alike = whose.iter().all(|&it| it == Both) && rng.flip();
    with_masses(rng, &whose, alike)
}

/// How many: mostly few, also none, one and the most.
fn count(rng: &mut Rng, most: usize) -> usize {
    match rng.below(32) {
        0..=2 => 0,
        3..=5 => 1,
        6 if rng.flip() => most,
        6 => rng.below(most + 1),
        7..=9 => rng.below(100),
        _ => 1 + rng.below(8),
    }
}

fn one_after_the_other(rng: &mut Rng) -> Vec<Whose> {
    let mut sides = [Sender, Receiver];
    rng.shuffle(&mut sides);
    let runs = sides.map(|side| vec![side; count(rng, MOST_ROWS)]);
    runs.concat()
}

/// Times of one record at both ends, and times of any sort between them.
fn one_within_the_other(rng: &mut Rng) -> Vec<Whose> {
    let outer = if rng.flip() { Sender } else { Receiver };
    let most = MOST_ROWS / 4;
    let [before, after] = [0; 2].map(|_| vec![outer; 1 + count(rng, most - 1)]);
    let between = shuffled(rng, [Sender, Receiver, Both], most);
    [before, between, after].concat()
}

/// At most so many of each, in any order.
fn shuffled<const SORTS: usize>(rng: &mut Rng, sorts: [Whose; SORTS], most: usize) -> Vec<Whose> {
    let runs = sorts.map(|sort| vec![sort; count(rng, most)]);
    let mut whose = runs.concat();
    rng.shuffle(&mut whose);
    whose
}

/// So many times that rise from 0 or more: each second, each hour or far apart, and now and then up to the highest number.
fn times(rng: &mut Rng, count: usize) -> Vec<i64> {
    let widest = [1, 3_600, i64::MAX / (count as i64 + 1)][rng.below(3)];
    let evenly = rng.flip();
    let mut next = if rng.flip() {
        0
    } else {
        rng.skewed(0..=widest)
    };
    let mut times = Vec::new();
    for _ in 0..count {
        times.push(next);
        next += if evenly {
            widest
        } else {
            rng.skewed(1..=widest)
        };
    }
    if rng.once_in(4) {
        times = times.iter().rev().map(|time| i64::MAX - time).collect();
    }
    times
}

/// Gives each time its masses; `alike` makes both records the same.
fn with_masses(rng: &mut Rng, whose: &[Whose], alike: bool) -> Records {
    let agreed = [0, 1, MOST_GRAMS, rng.skewed(0..=MOST_GRAMS)][rng.below(4)];
    let mut records = Records {
        sender: Vec::new(),
        receiver: Vec::new(),
        agreed,
    };
    for (time, &whose) in times(rng, whose.len()).into_iter().zip(whose) {
        let grams = rng.skewed(0..=MOST_GRAMS);
        if whose != Receiver {
            records.sender.push([time, grams]);
        }
        if whose != Sender {
            let grams = match alike {
                true => grams,
                false => other_mass(rng, grams, agreed),
            };
            records.receiver.push([time, grams]);
        }
    }
    records
}

/// A mass beside another: the same, as far off as is agreed, one gram more, or anywhere.
fn other_mass(rng: &mut Rng, grams: i64, agreed: i64) -> i64 {
    let off = [0, agreed, agreed + 1, rng.skewed(0..=MOST_GRAMS)][rng.below(4)];
    let off = if rng.flip() { off } else { -off };
    let both = [grams + off, grams - off];
    let fits = both.into_iter().find(|it| (0..=MOST_GRAMS).contains(it));
    fits.unwrap_or_else(|| rng.skewed(0..=MOST_GRAMS))
}
