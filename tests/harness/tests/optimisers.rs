//! docs/OPTIMISERS.md, on the second checker alone.

use harness::{Beside, Judge, optimisers};

const SEEDS: u64 = 4_000;

/// Each thing has to come this often.
const LEAST: u64 = 200;

#[test]
fn the_page_shows_what_the_example_gives() {
    let lines = optimisers::lines_of_example(&mut Beside::new(Judge::default()));
    let lines = lines.expect("there is no judge to differ");
    let shown = lines.join("\n");
    assert_eq!(optimisers::lines_of_page(), Ok(lines), "{shown}");
}

#[test]
fn errors_of_rounding_stay_within_the_bounds() {
    let mut beside = Beside::new(Judge::default());
    let counts = optimisers::rounds(&mut beside, 0..SEEDS);
    let counts = counts.unwrap_or_else(|difference| panic!("{difference}"));
    let kinds = [counts.with_pressures, counts.flows_alone];
    let all = kinds.into_iter().chain(counts.refused);
    assert!(all.min() >= Some(LEAST), "{counts:?}");
}
