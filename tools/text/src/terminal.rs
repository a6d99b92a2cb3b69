//! Words in, lines out: what every tool does with its command line and its streams.

use std::env;
use std::io::{self, Write};
use std::process::ExitCode;

/// The status where words or files are of no use, or nothing can be written.
pub const TROUBLE: u8 = 2;

/// The words after the tool's name.
pub fn words() -> Result<Vec<String>, String> {
    let word = |word: std::ffi::OsString| {
        word.into_string()
            .map_err(|word| format!("{} is no UTF-8 text", word.display()))
    };
    env::args_os().skip(1).map(word).collect()
}

/// Is help asked for, whatever else is?
pub fn asks_for_help(words: &[String]) -> bool {
    words.iter().any(|word| word == "-h" || word == "--help")
}

/// Writes to standard output. A full disk or a closed pipe is an error, told on standard error.
pub fn say(text: &str) -> Result<(), String> {
    let mut out = io::stdout().lock();
    let said = out.write_all(text.as_bytes()).and_then(|()| out.flush());
    said.map_err(|error| format!("standard output: {error}"))
}

/// Writes a line to standard error. Where that cannot be written either, the status is left to tell.
pub fn complain(line: &str) {
    let _ = writeln!(io::stderr(), "{line}");
}

/// Says what is wrong and gives the status for it.
pub fn trouble(error: &str) -> ExitCode {
    complain(error);
    ExitCode::from(TROUBLE)
}
