//! docs/OPTIMISERS.md, on the library beside the second checker.

use beside::library;
use harness::{Beside, optimisers};

const SEEDS: u64 = 2_000;

#[test]
fn the_library_gives_what_the_page_shows() {
    let lines = optimisers::lines_of_example(&mut Beside::new(library::judge()));
    let lines = lines.unwrap_or_else(|difference| panic!("{difference}"));
    assert_eq!(optimisers::lines_of_page(), Ok(lines));
}

#[test]
fn the_library_accepts_errors_of_rounding_within_the_bounds() {
    let mut beside = Beside::new(library::judge());
    let counts = optimisers::rounds(&mut beside, 0..SEEDS);
    let counts = counts.unwrap_or_else(|difference| panic!("{difference}"));
    assert!(
        counts.with_pressures > 0 && counts.flows_alone > 0,
        "{counts:?}"
    );
}
