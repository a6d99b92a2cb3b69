//! The words of the command.

use std::ffi::{OsStr, OsString};
use std::num::NonZero;

use crate::folder::Limits;
use crate::line::Form;
use crate::names::Source;

pub const HELP: &str = "\
usage: judge-many [OPTION..] FOLDER..

Judges case.bin and plan.bin of each folder, on all cores. The verdicts are those of ./judge FOLDER, one line each on standard
output, in the order in which the folders are named. A file that is missing counts as empty.

  -              folders from standard input, one to a line
  --from FILE    folders from a file, one to a line
  --csv          lines of CSV after a line of names; this is the default
  --json         a JSON object on each line
  --library      judge files past the program's limits, too, with a place for every number
  --jobs N       judge at most N folders at a time
  --             what follows are folders
  -h, --help     this text

  verdict        exit status, by the worst of all
  accepted       0    with six totals
  refused        1    with number, step and place; docs/RULES.md has each number in a sentence
  too long       2    a file is longer than the program takes
  no verdict     2    no such folder, or a file that cannot be read; the note says why

The status is 2, with a sentence on standard error, also where the words are wrong, where no folder is named, and where not all
lines could be written. On a terminal a bar on standard error shows how far it is.
";

/// What is asked for.
#[derive(Clone, Debug, PartialEq, Eq)]
pub enum Asked {
    Help,
    Judge(Request),
}

#[derive(Clone, Debug, PartialEq, Eq)]
pub struct Request {
    pub sources: Vec<Source>,
    pub form: Form,
    pub limits: Limits,
    /// The most folders at a time, where that is said.
    pub jobs: Option<NonZero<usize>>,
}

impl Asked {
    /// What these words ask for, or why they are wrong.
    pub fn of(words: impl IntoIterator<Item = OsString>) -> Result<Asked, String> {
        let mut request = Request {
            sources: Vec::new(),
            form: Form::Csv,
            limits: Limits::Program,
            jobs: None,
        };
        let mut words = words.into_iter();
        while let Some(word) = words.next() {
            match word.to_str() {
                Some("-h" | "--help") => return Ok(Asked::Help),
                Some("--") => request.sources.extend(words.by_ref().map(Source::Word)),
                Some("--csv") => request.form = Form::Csv,
                Some("--json") => request.form = Form::Json,
                Some("--library") => request.limits = Limits::Library,
                Some("--jobs") => request.jobs = Some(jobs(words.next())?),
                Some("--from") => request.sources.push(from(words.next())?),
                Some("-") => request.sources.push(Source::Input),
                _ if begins_as_option(&word) => return Err(no_option(&word)),
                _ => request.sources.push(Source::Word(word)),
            }
        }
        request.checked().map(Asked::Judge)
    }
}

impl Request {
    fn checked(self) -> Result<Request, String> {
        let inputs = self.sources.iter().filter(|it| **it == Source::Input);
        match (self.sources.len(), inputs.count()) {
            (0, _) => Err("no folder is named".to_string()),
            (_, 0 | 1) => Ok(self),
            _ => Err("standard input is named more than once".to_string()),
        }
    }
}

fn begins_as_option(word: &OsStr) -> bool {
    word.as_encoded_bytes().starts_with(b"-")
}

fn no_option(word: &OsStr) -> String {
    format!("there is no option {}", word.display())
}

fn jobs(word: Option<OsString>) -> Result<NonZero<usize>, String> {
    let number = word.as_deref().and_then(OsStr::to_str);
    let number = number.and_then(|number| number.parse().ok());
    number.ok_or("--jobs is to be followed by a number above 0".to_string())
}

/// A file's name; `-` is standard input.
fn from(word: Option<OsString>) -> Result<Source, String> {
    let word = word.ok_or("--from is to be followed by a file's name".to_string())?;
    Ok(match word.to_str() {
        Some("-") => Source::Input,
        _ => Source::File(word.into()),
    })
}

#[cfg(test)]
mod tests {
    use super::*;

    fn of(words: &[&str]) -> Result<Asked, String> {
        Asked::of(words.iter().map(OsString::from))
    }

    #[test]
    fn options_and_folders_stand_in_any_order() {
        let words = "a --json - --library --from list --jobs 3 -- --csv";
        let asked = of(&words.split(' ').collect::<Vec<_>>());
        let expected = Request {
            sources: vec![
                Source::Word("a".into()),
                Source::Input,
                Source::File("list".into()),
                Source::Word("--csv".into()),
            ],
            form: Form::Json,
            limits: Limits::Library,
            jobs: NonZero::new(3),
        };
        assert_eq!(asked, Ok(Asked::Judge(expected)));
        assert_eq!(of(&["a", "-h", "--wrong"]), Ok(Asked::Help));
    }

    #[test]
    fn wrong_words_are_named() {
        let wrong: [(&[&str], &str); 8] = [
            (&[], "no folder is named"),
            (&["--json"], "no folder is named"),
            (&["a", "--xml"], "no option --xml"),
            (&["a", "-x"], "no option -x"),
            (&["a", "--from"], "a file's name"),
            (&["a", "--jobs", "0"], "a number above 0"),
            (&["a", "--jobs"], "a number above 0"),
            (&["-", "--from", "-"], "more than once"),
        ];
        for (words, why) in wrong {
            let found = of(words).expect_err("wrong words");
            assert!(found.contains(why), "{words:?}: {found}");
        }
    }
}
