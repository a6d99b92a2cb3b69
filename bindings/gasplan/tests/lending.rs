//! What the header lets a caller do with lent regions.

mod table_t;

use std::thread;

use gasplan::{calls, judge, judge_bytes, ledger, settle, write_all};
use table_t::{CASE, PLAN};

/// One region may be lent as case and as plan: the answer is that on two copies.
#[test]
fn const_regions_may_be_the_same() {
    let (case, copy) = (CASE, CASE);
    let refusal = judge(&case, &copy).unwrap_err();
    assert_eq!(refusal.to_string(), "refused 20 0 0");
    assert_eq!(judge(&case, &case), Err(refusal));
    assert_eq!(ledger(&case, &case, 1, 0, 1), Err(refusal));

    let bytes = write_all(&case).unwrap();
    let (mut one, mut other) = ([7; 40], [7; 40]);
    let answer = judge_bytes(&bytes, &bytes, &mut one, &mut other);
    assert_eq!(answer, Err(refusal));
    assert_eq!(one, other);
    assert_eq!(one[..33], CASE);

    let (record, copy) = ([0, 5, 60, 7], [0, 5, 60, 7]);
    let settled = settle(&record, &copy, 0).unwrap();
    assert_eq!(settled.to_string(), "settled 12 2 0 0 0");
    assert_eq!(settle(&record, &record, 0), Ok(settled));
}

/// A plan that begins before the case has ended: the answer is that on two copies.
#[test]
fn const_regions_may_overlap() {
    let list = [&CASE[..], &PLAN[..]].concat();
    let copy = list.clone();
    for begin in 0..=33 {
        let answer = judge(&list[..33], &list[begin..]);
        assert_eq!(answer, judge(&list[..33], &copy[begin..]));
        assert_eq!(answer.is_ok(), begin == 33);
    }
}

/// Empty regions are regions.
#[test]
fn no_places_are_lent_too() {
    let mut out = [7; 6];
    assert_eq!(calls::read(&[], &mut [], &mut out), 0);
    assert_eq!(out, [0, 7, 7, 7, 7, 7]);
    assert_eq!(calls::judge(&[], &[], &mut []), gasplan::NO_ROOM);
    assert_eq!(calls::judge(&[], &[], &mut out), 10);
    assert_eq!(out, [0, 0, 7, 7, 7, 7]);
    assert_eq!(calls::settle(&[], &[], 0, &mut []), gasplan::NO_ROOM);
    assert_eq!(calls::settle(&[], &[], 0, &mut out), 0);
    assert_eq!(out, [0, 0, 0, 0, 0, 7]);
}

/// Threads share what is only read, and have lists of their own.
#[test]
fn threads_judge_at_once() {
    let (case_bytes, plan_bytes) = (write_all(&CASE).unwrap(), write_all(&PLAN).unwrap());
    let alone = judge(&CASE, &PLAN);
    let many = || {
        let (mut case_list, mut plan_list) = ([0; 40], [0; 20]);
        (0..2_000)
            .all(|_| judge_bytes(&case_bytes, &plan_bytes, &mut case_list, &mut plan_list) == alone)
    };
    thread::scope(|scope| {
        let running: Vec<_> = (0..4).map(|_| scope.spawn(many)).collect();
        for one in running {
            assert!(one.join().unwrap());
        }
    });
}
