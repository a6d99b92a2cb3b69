//! The judging functions, through the wrapper: table T.

mod table_t;

use gasplan::program::{CASE_BYTES, PLAN_BYTES, Verdict, verdict};
use gasplan::{Refusal, case, judge, judge_bytes, ledger, write_all};
use table_t::{CASE, PLAN};

/// Row 2's plan.
fn leaking() -> [i64; 18] {
    let mut plan = PLAN;
    plan[15] = 901;
    plan
}

/// Row 3's case.
fn tolerant() -> [i64; 33] {
    let mut case = CASE;
    (case[5], case[6]) = (60, 1);
    case
}

#[test]
fn table_t_is_judged() {
    assert_eq!(case(&CASE), Ok(()));
    let totals = judge(&CASE, &PLAN).unwrap();
    assert_eq!(totals.to_string(), "accepted 0 0 0 0 599988 611988");
    let refusal = judge(&CASE, &leaking()).unwrap_err();
    assert_eq!(refusal.to_string(), "refused 28 1 0");
    assert_eq!(judge(&tolerant(), &leaking()).unwrap().residual, 120);
}

#[test]
fn a_ledger_is_drawn_up() {
    let drawn = ledger(&tolerant(), &leaking(), 1 << 1, 0, 1).unwrap();
    assert_eq!((drawn.nodes, drawn.inner_pipes), (1, 0));
    assert_eq!((drawn.brought_in, drawn.residual), (60, 60));
    let stranger = ledger(&CASE, &PLAN, 1 << 2, 0, 1).unwrap_err();
    assert_eq!(stranger.to_string(), "refused 40 0 2");
    let swapped = ledger(&CASE, &PLAN, 1, 1, 0).unwrap_err();
    assert_eq!(swapped.to_string(), "refused 41 0 0");
}

#[test]
fn bytes_are_read_and_judged() {
    let (case_bytes, plan_bytes) = (write_all(&CASE).unwrap(), write_all(&PLAN).unwrap());
    let (mut case_list, mut plan_list) = ([7; 40], [7; 20]);
    let totals = judge_bytes(&case_bytes, &plan_bytes, &mut case_list, &mut plan_list);
    assert_eq!(totals, judge(&CASE, &PLAN));
    assert_eq!(
        (&case_list[..33], &case_list[33..]),
        (&CASE[..], &[7; 7][..])
    );
    assert_eq!(
        (&plan_list[..18], &plan_list[18..]),
        (&PLAN[..], &[7; 2][..])
    );
    let no_place = Refusal {
        number: 7,
        step: 0,
        place: 0,
    };
    let answer = judge_bytes(&case_bytes, &plan_bytes, &mut case_list, &mut []);
    assert_eq!(answer, Err(no_place));
}

/// The two-string call has the reader's places, each in its own string.
#[test]
fn a_wrong_byte_is_told_by_its_index() {
    let (case_bytes, plan_bytes) = (write_all(&CASE).unwrap(), write_all(&PLAN).unwrap());
    let ten = [[0xFF; 9].as_slice(), &[2]].concat();
    for (bytes, number, offset) in [(&[0x80][..], 1, 1), (&[0x80, 0], 2, 1), (&ten, 2, 9)] {
        let said = |case: &[u8], plan: &[u8]| verdict(case, plan).to_string();
        let case = [&case_bytes, bytes].concat();
        let place = case_bytes.len() + offset;
        assert_eq!(
            said(&case, &plan_bytes),
            format!("refused {number} 0 {place}")
        );
        let plan = [&plan_bytes, bytes].concat();
        let (number, place) = (number + 4, plan_bytes.len() + offset);
        assert_eq!(
            said(&case_bytes, &plan),
            format!("refused {number} 0 {place}")
        );
    }
}

#[test]
fn the_program_has_limits() {
    let said = |case: usize, plan: usize| verdict(&vec![0; case], &vec![0; plan]);
    assert_eq!(said(CASE_BYTES + 1, 0), Verdict::TooLong);
    assert_eq!(said(0, PLAN_BYTES + 1).to_string(), "too long");
    assert_eq!(said(CASE_BYTES, PLAN_BYTES).to_string(), "refused 3 0 1500");
    assert_eq!(said(0, 0).to_string(), "refused 10 0 0");
}
