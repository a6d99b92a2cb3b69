//! The second checker on all inputs, with the count of where they ended.

use std::io::{Write, stdout};

use harness::{Beside, Judge, codec_rounds, rounds, settlement_rounds};

/// Enough for every question; more are run beside a judge.
const ROUNDS: u64 = 1_000;

#[test]
fn every_question_is_reached() {
    let mut beside = Beside::new(Judge::default());
    for seed in 0..ROUNDS {
        if let Err(difference) = rounds::round(&mut beside, seed) {
            panic!("round {seed}: {difference}");
        }
        if let Err(difference) = codec_rounds::round(&mut beside, seed) {
            panic!("codec round {seed}: {difference}");
        }
        if let Err(difference) = settlement_rounds::round(&mut beside, seed) {
            panic!("settlement round {seed}: {difference}");
        }
    }
    // Not by `println`, which is kept back unless the test fails.
    let shown = writeln!(stdout(), "\n{}", beside.tally);
    assert!(shown.is_ok());
    assert_eq!(beside.tally.gaps(), Vec::<String>::new());
}
