//! Judges case.bin and plan.bin of a folder and, if they are accepted, prints the ledger of the whole network.
//!
//!     cargo build --offline --release --quiet --manifest-path examples/rust/Cargo.toml --target-dir target/examples/rust --bin judge
//!     target/examples/rust/release/judge examples/line
//!
//! The status is 0 for accepted, 1 for refused and 2 where there is no verdict.

use std::path::PathBuf;
use std::process::ExitCode;
use std::{env, fs};

use gasplan::program::{CASE_BYTES, CASE_NUMBERS, PLAN_BYTES, PLAN_NUMBERS};
use gasplan::{Ledger, Refusal};

/// All nodes, from step 0 to the last. The head of an accepted case has its counts of nodes and steps.
fn whole_ledger(case_list: &[i64], plan_list: &[i64]) -> Result<Ledger, Refusal> {
    let (nodes, steps) = (case_list[1], case_list[4]);
    gasplan::ledger(case_list, plan_list, (1 << nodes) - 1, 0, steps)
}

/// Prints the verdict and, after an accepted one, the ledger.
fn print_verdict(case_bytes: &[u8], plan_bytes: &[u8]) -> Result<(), Refusal> {
    // Lent to the library for the time of a call. A panel keeps such arrays once, too.
    let (mut case_list, mut plan_list) = ([0; CASE_NUMBERS], [0; PLAN_NUMBERS]);
    let totals = gasplan::judge_bytes(case_bytes, plan_bytes, &mut case_list, &mut plan_list)?;
    println!("{totals}");

    // How many numbers there are comes from the reader.
    let case_count = gasplan::read(case_bytes, &mut case_list)?;
    let plan_count = gasplan::read(plan_bytes, &mut plan_list)?;
    let ledger = whole_ledger(&case_list[..case_count], &plan_list[..plan_count])?;
    println!("{ledger}");
    Ok(())
}

fn main() -> ExitCode {
    let folder = PathBuf::from(env::args().nth(1).unwrap_or(".".to_string()));
    // A missing file counts as empty.
    let contents = |name| fs::read(folder.join(name)).unwrap_or_default();
    let (case_bytes, plan_bytes) = (contents("case.bin"), contents("plan.bin"));
    if case_bytes.len() > CASE_BYTES || plan_bytes.len() > PLAN_BYTES {
        println!("too long");
        return ExitCode::from(2);
    }
    match print_verdict(&case_bytes, &plan_bytes) {
        Ok(()) => ExitCode::SUCCESS,
        Err(refusal) => {
            println!("{refusal}");
            ExitCode::from(1)
        }
    }
}
