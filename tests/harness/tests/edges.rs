//! The edges, on the second checker alone: each is answered as it was worked out.

use harness::{Beside, Judge, edges};

const SEEDS: u64 = 48;

#[test]
fn every_edge_is_answered_as_worked_out() {
    let wrong = edges::wrong(&mut Beside::new(Judge::default()), SEEDS);
    assert!(wrong.is_empty(), "{wrong:#?}");
}
