//! Runs the library beside the second checker for as long as one likes.

use std::env;
use std::process::ExitCode;
use std::time::{Duration, Instant};

use beside::library;
use harness::{Beside, Difference, codec_rounds, rounds, settlement_rounds};

/// The first seed, and one in so many, has its lists written in every room, which takes as long as many rounds.
const LISTS_IN: u64 = 32;

fn main() -> ExitCode {
    let arguments: Vec<u64> = env::args()
        .skip(1)
        .filter_map(|argument| argument.parse().ok())
        .collect();
    let &[seconds, first_seed] = arguments.as_slice() else {
        eprintln!("usage: tests/soak SECONDS SEED");
        return ExitCode::from(2);
    };
    soak(Duration::from_secs(seconds), first_seed)
}

/// One round for each seed from the first on, until the time is over; one at least.
fn soak(time: Duration, first_seed: u64) -> ExitCode {
    let start = Instant::now();
    let mut beside = Beside::new(library::judge());
    let mut seed = first_seed;
    loop {
        let lists = seed == first_seed || seed.is_multiple_of(LISTS_IN);
        if let Err(difference) = round(&mut beside, seed, lists) {
            println!("{difference}");
            println!("again: tests/soak 0 {seed}");
            return ExitCode::FAILURE;
        }
        seed = seed.wrapping_add(1);
        if start.elapsed() >= time {
            break;
        }
    }
    println!("{}", beside.tally);
    println!("no difference in {} rounds", seed.wrapping_sub(first_seed));
    ExitCode::SUCCESS
}

fn round(beside: &mut Beside, seed: u64, lists: bool) -> Result<(), Difference> {
    rounds::round(beside, seed)?;
    codec_rounds::round(beside, seed)?;
    settlement_rounds::round(beside, seed)?;
    if lists {
        codec_rounds::lists_round(beside, seed)?;
    }
    Ok(())
}
