//! The two files that are to be judged: as bytes, or as text if that is asked for.

use std::fs;
use std::io::ErrorKind;
use std::path::{Path, PathBuf};

use gasplan::read_all;
use gasplan_text::files::{self, File, bytes_of, read_text};

use crate::input::Input;

/// Where the files are.
#[derive(Clone, Debug, PartialEq, Eq)]
pub enum Files {
    Folder(PathBuf),
    /// A case and a plan.
    Two(PathBuf, PathBuf),
}

pub struct Source {
    pub input: Input,
    /// What a reader of the verdict has to know of the files.
    pub notes: Vec<String>,
}

/// One file's bytes with its text beside it.
struct Pair {
    file: File,
    binary: PathBuf,
    text: PathBuf,
    /// Was the file itself named, and not its folder?
    named: bool,
}

type Result<T> = std::result::Result<T, String>;

/// Reads both files, their texts where `as_text` says so.
pub fn read(from: &Files, as_text: bool) -> Result<Source> {
    let mut source = Source {
        input: Input {
            case_bytes: Vec::new(),
            plan_bytes: Vec::new(),
        },
        notes: Vec::new(),
    };
    let pairs = pairs(from, as_text)?;
    if as_text && pairs.iter().all(|pair| !pair.text.exists()) {
        let [case, plan] = pairs.map(|pair| pair.text.display().to_string());
        return Err(format!("there is no {case} and no {plan}"));
    }
    for pair in pairs {
        let bytes = match as_text {
            true => text_bytes(&pair, &mut source)?,
            false => binary_bytes(&pair, &mut source)?,
        };
        *source.input.bytes_mut(pair.file) = bytes;
        let differs = difference(&pair, as_text, &source.input);
        source.notes.extend(differs);
    }
    Ok(source)
}

fn pairs(from: &Files, as_text: bool) -> Result<[Pair; 2]> {
    match from {
        Files::Folder(folder) if !folder.is_dir() => Err(format!(
            "{} is no folder; name one, or a case file and a plan file",
            folder.display()
        )),
        Files::Folder(folder) => Ok(File::BOTH.map(|file| Pair {
            file,
            binary: folder.join(format!("{}.bin", file.name())),
            text: folder.join(format!("{}.txt", file.name())),
            named: false,
        })),
        Files::Two(case, plan) => Ok([
            named(File::Case, case, as_text)?,
            named(File::Plan, plan, as_text)?,
        ]),
    }
}

fn named(file: File, path: &Path, as_text: bool) -> Result<Pair> {
    let is_text = path.extension().is_some_and(|it| it == "txt");
    let (binary, text) = match (is_text, as_text) {
        (true, true) => (path.with_extension("bin"), path.to_path_buf()),
        (false, false) => (path.to_path_buf(), path.with_extension("txt")),
        (true, false) => {
            let path = path.display();
            return Err(format!("{path} is a text: say --text to judge it"));
        }
        (false, true) => {
            let path = path.display();
            return Err(format!(
                "{path} is no text: with --text, name two .txt files"
            ));
        }
    };
    Ok(Pair {
        file,
        binary,
        text,
        named: true,
    })
}

/// A missing file counts as empty, as the program has it; one that was named has to be there.
fn binary_bytes(pair: &Pair, source: &mut Source) -> Result<Vec<u8>> {
    match fs::read(&pair.binary) {
        Ok(bytes) => Ok(bytes),
        Err(error) if error.kind() == ErrorKind::NotFound && !pair.named => {
            let missing = pair.binary.display();
            let text = match pair.text.exists() {
                true => format!("; {} is there, and --text judges it", pair.text.display()),
                false => String::new(),
            };
            source.notes.push(format!(
                "warning: {missing} is missing and counts as empty{text}"
            ));
            Ok(Vec::new())
        }
        Err(error) => Err(files::told(&pair.binary, error)),
    }
}

/// The bytes of a text's numbers. Where a folder has no text of a file, its bytes do.
fn text_bytes(pair: &Pair, source: &mut Source) -> Result<Vec<u8>> {
    if !pair.named && !pair.text.exists() {
        let (text, binary) = (pair.text.display(), pair.binary.display());
        let note = format!("warning: there is no {text}; {binary} is judged");
        source.notes.push(note);
        return binary_bytes(pair, source);
    }
    bytes_of(&read_text(&pair.text, Some(pair.file))?)
}

/// A warning where bytes and text are both there and say different things.
fn difference(pair: &Pair, as_text: bool, input: &Input) -> Option<String> {
    if !pair.binary.exists() || !pair.text.exists() {
        return None;
    }
    let case = read_all(&input.case_bytes).unwrap_or_default();
    let bytes = files::read_bin(&pair.binary);
    let text = files::read_text(&pair.text, Some(pair.file));
    let how = match (bytes, text) {
        (Ok(bytes), Ok(text)) => files::difference(pair.file, &case, &bytes, &text)?,
        (Err(error), _) | (_, Err(error)) => error,
    };
    let (binary, text) = (pair.binary.display(), pair.text.display());
    Some(match as_text {
        true => format!("warning: {text} is judged, but {binary} says something else: {how}"),
        false => format!(
            "warning: {binary} is judged, but {text} says something else: {how} (--text judges the text)"
        ),
    })
}
