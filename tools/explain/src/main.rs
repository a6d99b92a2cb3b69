//! `explain`: the verdict on two files, in words and as a picture.
#![forbid(unsafe_code)]

use std::fs;
use std::process::ExitCode;

use explain::change::apply;
use explain::request::{Request, USAGE};
use explain::{answer, source};
use gasplan_text::files::told;
use gasplan_text::terminal::{asks_for_help, complain, say, trouble, words};

/// A plan that is accepted, and one that is not.
const ACCEPTED: u8 = 0;
const REFUSED: u8 = 1;

fn main() -> ExitCode {
    match words().and_then(|words| run(&words)) {
        Ok(status) => ExitCode::from(status),
        Err(error) => trouble(&error),
    }
}

fn run(words: &[String]) -> Result<u8, String> {
    if asks_for_help(words) {
        say(&format!("{USAGE}\n"))?;
        return Ok(0);
    }
    let request = Request::of(words).map_err(|error| format!("{error}\n{USAGE}"))?;
    let source::Source { mut input, notes } = source::read(&request.files, request.text)?;
    apply(&mut input, &request.changes)?;
    answer::check_step(&input, &request)?;
    notes.iter().for_each(|note| complain(note));
    let answer = answer::answer(&input, &request);
    say(&answer.text)?;
    if let (Some(path), Some(picture)) = (&request.svg, &answer.picture) {
        fs::write(path, picture).map_err(|error| told(path, error))?;
    }
    Ok(if answer.accepted { ACCEPTED } else { REFUSED })
}
