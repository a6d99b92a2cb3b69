//! The settlement of two meters' records, through the wrapper.

use gasplan::{GRAMS_MOST, RECORD_MOST, Refusal, Settlement, settle};

/// Hours 1, 2, 3 and 5 at the sender, 1, 2, 3 and 4 at the receiver: the second agrees within 10 g, the third does not.
const SENDER: [i64; 8] = [3_600, 500, 7_200, 610, 10_800, 620, 18_000, 40];
const RECEIVER: [i64; 8] = [3_600, 500, 7_200, 600, 10_800, 600, 14_400, 7];

fn said(sender: &[i64], receiver: &[i64], agreed: i64) -> String {
    match settle(sender, receiver, agreed) {
        Ok(settlement) => settlement.to_string(),
        Err(refusal) => refusal.to_string(),
    }
}

/// So many rows, a second apart and with the same mass.
fn rows(count: usize, grams: i64) -> Vec<i64> {
    (0..count as i64).flat_map(|time| [time, grams]).collect()
}

#[test]
fn the_five_figures_are_named() {
    let settled = Settlement {
        total: 500 + 610 + 600 + 40 + 7,
        agreed: 2,
        cut: 1,
        only_sender: 1,
        only_receiver: 1,
    };
    assert_eq!(settle(&SENDER, &RECEIVER, 10), Ok(settled));
    assert_eq!(said(&SENDER, &RECEIVER, 10), "settled 1757 2 1 1 1");
    assert_eq!(said(&SENDER, &RECEIVER, 9), "settled 1747 1 2 1 1");
    assert_eq!(said(&RECEIVER, &SENDER[..6], 10), "settled 1707 2 1 1 0");
    assert_eq!(said(&SENDER, &SENDER, 0), "settled 1770 4 0 0 0");
    assert_eq!(said(&[], &[], 0), "settled 0 0 0 0 0");
}

#[test]
fn refusals_have_their_row() {
    assert_eq!(said(&SENDER[..7], &RECEIVER, 10), "refused 60 0 0");
    assert_eq!(said(&SENDER, &RECEIVER, -1), "refused 60 0 0");
    assert_eq!(said(&SENDER, &RECEIVER, GRAMS_MOST + 1), "refused 60 0 0");
    assert_eq!(said(&SENDER, &[-1, 0], 10), "refused 61 0 0");
    let twice = [SENDER, SENDER].concat();
    assert_eq!(said(&twice, &RECEIVER, 10), "refused 61 0 4");
    let heavy = [3_600, 500, 7_200, GRAMS_MOST + 1];
    assert_eq!(said(&SENDER, &heavy, 10), "refused 62 0 1");
}

#[test]
fn a_record_may_have_5000_rows() {
    let (full, one_more) = (rows(RECORD_MOST, GRAMS_MOST), rows(RECORD_MOST + 1, 0));
    let same = settle(&full, &full, GRAMS_MOST).unwrap();
    assert_eq!(same.total, RECORD_MOST as i64 * GRAMS_MOST);
    assert_eq!(same.agreed, RECORD_MOST as i64);
    assert_eq!(said(&one_more, &full, 0), "refused 60 0 0");
    assert_eq!(said(&full, &one_more, 0), "refused 60 0 0");
}

/// A second call, with an empty record for the receiver's, is refused by the same number if the row is the sender's.
#[test]
fn whose_row_it_is_can_be_told() {
    let number = |answer: Result<Settlement, Refusal>| answer.err().map(|refusal| refusal.number);
    let alone = |record: &[i64]| number(settle(record, &[], 0));
    let (falls, heavy) = ([5, 0, 4, 0], [5, 0, 6, -1]);
    for (sender, receiver, refused, sender_s) in [
        (falls, heavy, 61, true),
        (heavy, falls, 61, false),
        (falls, falls, 61, true),
        (heavy, heavy, 62, true),
        ([5, 0, 6, 0], heavy, 62, false),
        ([5, 0, 6, 0], falls, 61, false),
    ] {
        assert_eq!(number(settle(&sender, &receiver, 0)), Some(refused));
        assert_eq!(alone(&sender) == Some(refused), sender_s);
    }
}
