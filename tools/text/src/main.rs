//! `gasplan-text`: cases, plans and the records of meters as text, to and from their binary files.
#![forbid(unsafe_code)]

use std::path::Path;
use std::process::ExitCode;

use gasplan_text::terminal::{asks_for_help, say, trouble, words};
use gasplan_text::{files, write};

const USAGE: &str = "\
usage: gasplan-text to-bin FOLDER                    case.txt and plan.txt into case.bin and plan.bin, all or none
       gasplan-text to-text FOLDER                   case.bin and plan.bin into case.txt and plan.txt, where there is none
       gasplan-text check FOLDER                     are texts and binary files the same?
       gasplan-text to-bin TEXT BINARY               one file
       gasplan-text to-text case CASE.bin            one file, to standard output
       gasplan-text to-text plan PLAN.bin CASE.bin
       gasplan-text to-text meter FILE.bin
       gasplan-text to-text numbers FILE.bin
  -h, --help                                         this page
In a folder the records of two meters, sender.txt and receiver.txt, go the same way, beside a case or without one.
Nothing is judged. The status is 0 where all went well, and 2 where words, a text or a file are of no use, or nothing can be written.
The text form is described in tools/README.md.";

fn main() -> ExitCode {
    match words().and_then(|words| run(&words)) {
        Ok(()) => ExitCode::SUCCESS,
        Err(error) => trouble(&error),
    }
}

fn run(words: &[String]) -> files::Result<()> {
    if asks_for_help(words) {
        return say(&format!("{USAGE}\n"));
    }
    let words: Vec<&str> = words.iter().map(String::as_str).collect();
    say(&done(&words)?)
}

/// Does what the words ask for, and gives what is to be said.
fn done(words: &[&str]) -> files::Result<String> {
    match words {
        ["to-bin", folder] => files::to_bin(Path::new(folder)).map(lines),
        ["to-text", folder] => files::to_text(Path::new(folder)).map(lines),
        ["check", folder] => files::check(Path::new(folder)).map(lines),
        ["to-bin", text, binary] => {
            let line = files::one_to_bin(Path::new(text), Path::new(binary))?;
            Ok(lines(vec![line]))
        }
        ["to-text", "case", case] => Ok(write::case(&files::read_bin(Path::new(case))?)),
        ["to-text", "plan", plan, case] => {
            let case = files::read_bin(Path::new(case))?;
            Ok(write::plan(&files::read_bin(Path::new(plan))?, &case))
        }
        ["to-text", "meter", file] => Ok(write::meter(&files::read_bin(Path::new(file))?)),
        ["to-text", "numbers", file] => Ok(write::numbers(&files::read_bin(Path::new(file))?)),
        _ => Err(USAGE.to_string()),
    }
}

fn lines(lines: Vec<String>) -> String {
    lines.iter().map(|line| format!("{line}\n")).collect()
}
