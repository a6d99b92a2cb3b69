//! `settle`: one figure of two records, with the ways it came about.
#![forbid(unsafe_code)]

use std::process::ExitCode;

use gasplan_text::terminal::{asks_for_help, complain, say, trouble, words};
use settle::answer::answer;
use settle::records::Records;
use settle::request::{Request, USAGE};

/// Two records that are settled, and two that are not.
const SETTLED: u8 = 0;
const REFUSED: u8 = 1;

fn main() -> ExitCode {
    match words().and_then(|words| run(&words)) {
        Ok(status) => ExitCode::from(status),
        Err(error) => trouble(&error),
    }
}

fn run(words: &[String]) -> Result<u8, String> {
    if asks_for_help(words) {
        say(&format!("{USAGE}\n"))?;
        return Ok(SETTLED);
    }
    let request = Request::of(words).map_err(|error| format!("{error}\n{USAGE}"))?;
    let mut records = Records::read(&request.files)?;
    records.change(&request.changes)?;
    let answer = answer(&records, &request)?;
    answer.warnings.iter().for_each(|line| complain(line));
    say(&answer.text)?;
    Ok(if answer.settled { SETTLED } else { REFUSED })
}
