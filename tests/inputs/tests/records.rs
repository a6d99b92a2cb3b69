//! What the generator of records makes: every relation of two records, and the same ones from the same seed.

use std::collections::BTreeSet;

use inputs::Rng;
use inputs::counts::{Counts, note, seldom};
use inputs::records::{GRAMS, MOST_GRAMS, MOST_ROWS, Records, Row, TIME, settling};

const PAIRS: u64 = 3_000;

/// Each thing has to occur this often.
const LEAST: u64 = 20;

/// First and last time.
fn span(rows: &[Row]) -> Option<[i64; 2]> {
    Some([rows.first()?[TIME], rows.last()?[TIME]])
}

fn note_records(counts: &mut Counts, records: &Records) {
    let Records {
        sender, receiver, ..
    } = records;
    let lengths = [sender.len(), receiver.len()];
    note(counts, "no row", lengths == [0, 0]);
    note(counts, "no row of the sender's", sender.is_empty());
    note(counts, "no row of the receiver's", receiver.is_empty());
    note(counts, "5,000 rows of the sender's", lengths[0] == 5_000);
    note(counts, "5,000 rows of the receiver's", lengths[1] == 5_000);
    note(counts, "short", lengths.iter().all(|&it| it < 200));
    let some = !sender.is_empty();
    note(counts, "the same", some && sender == receiver);
    note(counts, "agreed 0", records.agreed == 0);
    note(counts, "agreed 10^12", records.agreed == MOST_GRAMS);
    let rows = || sender.iter().chain(receiver);
    note(counts, "time 0", rows().any(|row| row[TIME] == 0));
    let highest = rows().any(|row| row[TIME] == i64::MAX);
    note(counts, "highest time", highest);
    note(counts, "mass 0", rows().any(|row| row[GRAMS] == 0));
    let most = rows().any(|row| row[GRAMS] == MOST_GRAMS);
    note(counts, "mass 10^12", most);
}

fn note_relation(counts: &mut Counts, records: &Records) {
    let (Some([first, last]), Some([other_first, other_last])) =
        (span(&records.sender), span(&records.receiver))
    else {
        return;
    };
    let times = |rows: &[Row]| rows.iter().map(|row| row[TIME]).collect::<BTreeSet<i64>>();
    let [sent, received] = [&records.sender, &records.receiver].map(|rows| times(rows));
    let shared = sent.intersection(&received).count();
    let apart = shared == 0;
    note(counts, "sender before", last < other_first);
    note(counts, "receiver before", other_last < first);
    let within = first < other_first && other_last < last;
    let around = other_first < first && last < other_last;
    note(counts, "receiver within, apart", within && apart);
    note(counts, "receiver within, shared", within && !apart);
    note(counts, "sender within, apart", around && apart);
    note(counts, "sender within, shared", around && !apart);
    let meet = first < other_last && other_first < last;
    note(counts, "interleaved", apart && meet);
    let some = 0 < shared && shared < sent.len().min(received.len());
    note(counts, "overlapping", some);
    note(counts, "same times", sent == received);
}

/// How far the receiver's mass is above the sender's, held to what is agreed.
fn note_masses(counts: &mut Counts, records: &Records) {
    let agreed = records.agreed;
    for [time, grams] in &records.sender {
        let same_time = |row: &&Row| row[TIME] == *time;
        let Some(other) = records.receiver.iter().find(same_time) else {
            continue;
        };
        let above = other[GRAMS] - grams;
        note(counts, "equal masses", above == 0);
        let some = agreed > 0;
        note(counts, "above by the agreed", some && above == agreed);
        note(counts, "below by the agreed", some && above == -agreed);
        note(counts, "one more above", above == agreed + 1);
        note(counts, "one more below", above == -agreed - 1);
        note(counts, "far above", above > agreed + 1);
        note(counts, "far below", above < -agreed - 1);
        note(counts, "within", above != 0 && above.abs() < agreed);
    }
}

#[test]
fn every_relation_occurs() {
    let mut counts = Counts::new();
    for seed in 0..PAIRS {
        let records = settling(&mut Rng::new(seed));
        note_records(&mut counts, &records);
        note_relation(&mut counts, &records);
        if records.sender.len() < 200 {
            note_masses(&mut counts, &records);
        }
    }
    let seldom = seldom(&counts, LEAST);
    assert!(seldom.is_empty(), "{seldom:?}");
    assert!(counts["short"] * 10 > PAIRS * 8, "{}", counts["short"]);
}

#[test]
fn records_are_as_60_to_62_ask() {
    for seed in 0..PAIRS {
        let records = settling(&mut Rng::new(seed));
        assert!((0..=MOST_GRAMS).contains(&records.agreed), "seed {seed}");
        for rows in [&records.sender, &records.receiver] {
            assert!(rows.len() <= MOST_ROWS, "seed {seed}");
            assert!(rows.is_sorted_by(|one, other| one[TIME] < other[TIME]));
            assert!(rows.iter().all(|row| row[TIME] >= 0), "seed {seed}");
            let in_range = |row: &Row| (0..=MOST_GRAMS).contains(&row[GRAMS]);
            assert!(rows.iter().all(in_range), "seed {seed}");
        }
    }
}

#[test]
fn a_seed_gives_the_same_records_again() {
    for seed in 0..50 {
        let [one, other] = [0; 2].map(|_| settling(&mut Rng::new(seed)));
        assert_eq!(one, other);
    }
}
