//! The folders that are named: as words, or one to a line.

use std::ffi::{OsStr, OsString};
use std::fs;
use std::io::{self, Read};
use std::os::unix::ffi::OsStrExt;
use std::path::PathBuf;

/// What names folders.
#[derive(Clone, Debug, PartialEq, Eq)]
pub enum Source {
    /// A word, which is a folder's name.
    Word(OsString),
    /// A file with a name to a line.
    File(PathBuf),
    /// Standard input, with a name to a line.
    Input,
}

/// All names, in the order of the sources.
pub fn all(sources: &[Source], mut input: impl Read) -> Result<Vec<OsString>, String> {
    let mut names = Vec::new();
    for source in sources {
        match source {
            Source::Word(word) => names.push(word.clone()),
            Source::File(path) => {
                let unreadable = |error| format!("{}: {error}", path.display());
                names.extend(lines(&fs::read(path).map_err(unreadable)?));
            }
            Source::Input => {
                let mut text = Vec::new();
                let unreadable = |error: io::Error| format!("standard input: {error}");
                input.read_to_end(&mut text).map_err(unreadable)?;
                names.extend(lines(&text));
            }
        }
    }
    match names.is_empty() {
        true => Err("no folder is named".to_string()),
        false => Ok(names),
    }
}

/// Each line is a name, also an empty one: there are as many verdicts as lines.
fn lines(text: &[u8]) -> Vec<OsString> {
    if text.is_empty() {
        return Vec::new();
    }
    let text = text.strip_suffix(b"\n").unwrap_or(text);
    let name = |line| OsStr::from_bytes(line).to_os_string();
    text.split(|&sign| sign == b'\n').map(name).collect()
}

#[cfg(test)]
mod tests {
    use super::*;

    #[test]
    fn lines_and_words_keep_their_order() {
        let word = |text: &str| Source::Word(text.into());
        let names = all(&[word("a"), Source::Input, word("d")], &b"b\nc"[..]);
        assert_eq!(names.unwrap(), ["a", "b", "c", "d"]);
    }

    #[test]
    fn an_empty_line_is_a_name() {
        let names = all(&[Source::Input], &b"a\n\n b \r\n"[..]);
        assert_eq!(names.unwrap(), ["a", "", " b \r"]);
        assert_eq!(all(&[Source::Input], &b"\n"[..]).unwrap(), [""]);
    }

    #[test]
    fn no_name_is_an_error() {
        let none = all(&[Source::Input], &b""[..]);
        assert_eq!(none, Err("no folder is named".to_string()));
        let missing = all(&[Source::File("/nowhere/list".into())], &b""[..]).unwrap_err();
        assert!(missing.starts_with("/nowhere/list: "), "{missing}");
    }
}
