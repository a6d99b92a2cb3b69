//! The library beside the second checker, at the edges of each question.

use beside::library;
use harness::{Beside, edges};

/// Every edge is made for each of these.
const SEEDS: u64 = 48;

#[test]
fn the_library_answers_every_edge_as_the_second_checker() {
    let wrong = edges::wrong(&mut Beside::new(library::judge()), SEEDS);
    let names = wrong.iter().map(|wrong| {
        let rounds = wrong.rounds;
        format!("{}: {rounds} of {SEEDS} rounds\n", wrong.name)
    });
    let names: String = names.collect();
    let first = wrong.first().map(|wrong| &wrong.first);
    assert!(
        wrong.is_empty(),
        "answered otherwise:\n{names}the first: {first:?}"
    );
}
