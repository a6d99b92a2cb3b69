//! The proved library against the second checker, plain Rust. Settlements run against two
//! of them: the second checker's sorted map and a merge that is written for speed.
//!
//! Both run in the same process on the same inputs, in turns. What counts is the ratio:
//! speed of the proved code over speed of the plain code, so that 1 is as fast and 0.5
//! takes twice the time. The proved writer runs against the earlier one too, which has a
//! spare array: it is a failure if that one is ahead in three races in a row. `--short`
//! takes fewer and shorter samples.
#![forbid(unsafe_code)]

mod alike;
mod codec;
mod growth;
mod judging;
mod pairs;
mod race;
mod settling;
mod subjects;

use std::env;
use std::process::ExitCode;

use race::Timer;

fn main() -> ExitCode {
    let words: Vec<String> = env::args().skip(1).collect();
    let timer = match words.iter().map(String::as_str).collect::<Vec<_>>()[..] {
        [] => Timer::LONG,
        ["--short"] => Timer::SHORT,
        _ => {
            eprintln!("usage: bench [--short]");
            return ExitCode::from(2);
        }
    };
    codec::print(timer);
    println!();
    judging::print(timer);
    println!();
    growth::print(timer);
    println!();
    settling::print(timer);
    ExitCode::SUCCESS
}
