//! The library beside the second checker, on everything that is made from seeds.

use std::io::{Write, stdout};

use beside::library;
use gasplan::calls;
use harness::{Beside, Judge, codec_rounds, document, rounds, settlement_rounds};

const ROUNDS: u64 = 6_000;

/// Strings and lists read and written in every room, at least.
const CODED: u64 = 200_000;

/// Test output is kept back unless a test fails; the counts are to be seen in any case.
fn show(beside: &Beside) {
    let shown = writeln!(stdout(), "\n{}", beside.tally);
    assert!(shown.is_ok());
}

#[test]
fn the_library_answers_as_the_second_checker() {
    let mut beside = Beside::new(library::judge());
    for seed in 0..ROUNDS {
        let seed = 1_000_000 + seed;
        if let Err(difference) = rounds::round(&mut beside, seed) {
            panic!("tests/soak 0 {seed}: {difference}");
        }
        if let Err(difference) = codec_rounds::round(&mut beside, seed) {
            panic!("tests/soak 0 {seed}: {difference}");
        }
        if let Err(difference) = settlement_rounds::round(&mut beside, seed) {
            panic!("tests/soak 0 {seed}: {difference}");
        }
    }
    show(&beside);
    assert_eq!(beside.tally.gaps(), Vec::<String>::new());
}

#[test]
fn reader_and_writer_agree_in_every_room() {
    let mut beside = Beside::new(library::judge());
    let mut seed = 2_000_000;
    while beside.tally.strings_and_lists < CODED {
        if let Err(difference) = codec_rounds::round(&mut beside, seed) {
            panic!("tests/soak 0 {seed}: {difference}");
        }
        seed += 1;
    }
    assert!(beside.tally.coded > CODED);
}

#[test]
fn the_document_holds() {
    let mut beside = Beside::new(library::judge());
    let table = document::table_t(&mut beside);
    assert!(table.is_ok(), "{table:?}");
    let slips = document::slips(&mut beside);
    assert!(slips.is_ok(), "{slips:?}");
}

/// Each call is really compared: with a wrong one put in, a difference is found.
#[test]
fn a_wrong_call_is_found() {
    for (name, wrong) in wrong_judges() {
        let mut beside = Beside::new(wrong);
        let found = (1..200).any(|seed| {
            rounds::round(&mut beside, seed).is_err()
                || codec_rounds::round(&mut beside, seed).is_err()
                || settlement_rounds::round(&mut beside, seed).is_err()
        });
        assert!(found, "{name}");
    }
}

/// The library with one call spoilt.
fn wrong_judges() -> Vec<(&'static str, Judge)> {
    let mut all = Vec::new();
    let mut add = |name, spoil: fn(&mut Judge)| {
        let mut judge = library::judge();
        spoil(&mut judge);
        all.push((name, judge));
    };
    add("read", |judge| {
        judge.read = Some(Box::new(|bytes, list, out| {
            let answer = calls::read(bytes, list, out);
            if answer == 0 { 1 } else { answer }
        }));
    });
    add("write", |judge| {
        judge.write = Some(Box::new(|list, bytes, out| {
            let answer = calls::write(list, bytes, out);
            bytes.iter_mut().for_each(|byte| *byte = 0);
            answer
        }));
    });
    add("case", |judge| {
        judge.case = Some(Box::new(|case, out| {
            calls::case(case, out);
            0
        }));
    });
    add("plan", |judge| {
        judge.plan = Some(Box::new(|case, plan, out| {
            let answer = calls::judge(case, plan, out);
            raise(answer, out, 5);
            answer
        }));
    });
    add("bytes", |judge| {
        judge.bytes = Some(Box::new(|case, plan, cases, plans, out| {
            let answer = calls::judge_bytes(case, plan, cases, plans, out);
            plans.iter_mut().for_each(|place| *place = 0);
            answer
        }));
    });
    add("ledger", |judge| {
        judge.ledger = Some(Box::new(|case, plan, set, s, t, out| {
            let answer = calls::ledger(case, plan, set, s, t, out);
            raise(answer, out, 5);
            answer
        }));
    });
    add("settle", |judge| {
        judge.settle = Some(Box::new(|sender, receiver, agreed, out| {
            let answer = calls::settle(sender, receiver, agreed, out);
            raise(answer, out, 4);
            answer
        }));
    });
    add("line", |judge| {
        judge.line = Some(Box::new(|_, _| "accepted 0 0 0 0 0 0".to_string()));
    });
    all
}

/// Raises a figure after a yes.
fn raise(answer: i64, out: &mut [i64], figure: usize) {
    if answer == 0 {
        out[figure] += 1;
    }
}
