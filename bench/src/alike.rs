//! Calls that give the same figures, raced.

use std::hint::black_box;

use harness::calls::OUT_PLACES;

use crate::race::Timer;

/// A call on an `out`, and its answer.
pub type Call<'a> = &'a dyn Fn(&mut [i64]) -> i64;

/// Seconds of each. All answer 0 and leave the same figures in `out`.
pub fn race<const CALLS: usize>(timer: Timer, calls: [Call; CALLS]) -> [f64; CALLS] {
    race_to(timer, 0, calls)
}

/// Seconds of each. All give this answer and leave the same in `out`.
pub fn race_to<const CALLS: usize>(
    timer: Timer,
    answer: i64,
    calls: [Call; CALLS],
) -> [f64; CALLS] {
    let figures = calls.map(|call| {
        let mut out = [0; OUT_PLACES];
        call(&mut out);
        out
    });
    assert!(
        figures.iter().all(|it| *it == figures[0]),
        "all leave the same in out"
    );
    let mut runs = calls.map(|call| {
        let mut out = [0; OUT_PLACES];
        move || assert_eq!(black_box(call(&mut out)), answer)
    });
    timer.race(runs.each_mut().map(|run| run as &mut dyn FnMut()))
}
