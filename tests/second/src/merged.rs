//! The settlement by a merge of the two records, written for speed and kept for `bench`: nothing is allocated, and a record that
//! passes is gone through once for the questions and once for the figures.

use std::cmp::Ordering;

use crate::settlement::{MOST_GRAMS, MOST_ROWS, Settlement, asked};
use crate::verdict::Answer;

/// Time and grams.
type Row = [i64; 2];

/// Settles the sender's record with the receiver's.
pub fn settle(sender: &[i64], receiver: &[i64], agreed: i64) -> Answer<Settlement> {
    let (sent, half) = sender.as_chunks();
    let (received, other_half) = receiver.as_chunks();
    let whole = half.is_empty() && other_half.is_empty();
    let short = sent.len() <= MOST_ROWS && received.len() <= MOST_ROWS;
    if !(whole && short && is_mass(agreed) && passes(sent) && passes(received)) {
        // Which "no" comes first is asked only where there is one.
        asked(sender, receiver, agreed)?;
    }
    Ok(merged(sent, received, agreed))
}

fn is_mass(grams: i64) -> bool {
    (0..=MOST_GRAMS).contains(&grams)
}

/// Do its times rise from 0 or more, and is each mass in range?
fn passes(rows: &[Row]) -> bool {
    let mut before = -1;
    let mut all = true;
    for &[time, grams] in rows {
        all &= (before < time) & is_mass(grams);
        before = time;
    }
    all
}

/// The masses of two passing records stay far from the ends of 64 bits: the total is at most 10^16.
fn merged(mut sent: &[Row], mut received: &[Row], most: i64) -> Settlement {
    let (mut total, mut agreed, mut cut) = (0, 0_usize, 0_usize);
    let (mut only_sender, mut only_receiver) = (0, 0);
    while let (Some((&[time, grams], later)), Some((&[other_time, other], others))) =
        (sent.split_first(), received.split_first())
    {
        match time.cmp(&other_time) {
            Ordering::Less => (total, only_sender, sent) = (total + grams, only_sender + 1, later),
            Ordering::Greater => {
                (total, only_receiver, received) = (total + other, only_receiver + 1, others);
            }
            Ordering::Equal => {
                if (grams - other).abs() <= most {
                    (total, agreed) = (total + grams, agreed + 1);
                } else {
                    (total, cut) = (total + grams.min(other), cut + 1);
                }
                (sent, received) = (later, others);
            }
        }
    }
    let left = sent.iter().chain(received);
    total += left.map(|&[_, grams]| grams).sum::<i64>();
    Settlement {
        total: i128::from(total),
        agreed: agreed as i128,
        cut: cut as i128,
        only_sender: (only_sender + sent.len()) as i128,
        only_receiver: (only_receiver + received.len()) as i128,
    }
}
