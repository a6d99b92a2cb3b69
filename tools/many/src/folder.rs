//! One folder: its two files, and the verdict on them.

use std::fs::{self, File};
use std::io::{ErrorKind, Read};
use std::path::Path;

use gasplan::program::{self, Verdict};

/// By whose limits a folder is judged.
#[derive(Clone, Copy, Debug, PartialEq, Eq)]
pub enum Limits {
    /// The program's: files over their limit are too long, and its lists hold 1,500 and 4,000 numbers.
    Program,
    /// None: files of any length, with a place for every number.
    Library,
}

/// What is found on a folder.
#[derive(Clone, Debug, PartialEq, Eq)]
pub struct Finding {
    /// The verdict, if there is one; else the note says why not.
    pub verdict: Option<Verdict>,
    /// For people; often empty.
    pub note: String,
}

/// How a finding ends, the worst last; the numbers are those of the exit status.
#[derive(Clone, Copy, Debug, PartialEq, Eq, PartialOrd, Ord)]
pub enum Ending {
    Accepted = 0,
    Refused = 1,
    Open = 2,
}

impl Finding {
    pub fn ending(&self) -> Ending {
        match self.verdict {
            Some(Verdict::Judged(Ok(_))) => Ending::Accepted,
            Some(Verdict::Judged(Err(_))) => Ending::Refused,
            Some(Verdict::TooLong) | None => Ending::Open,
        }
    }
}

/// Judges case.bin and plan.bin of a folder. As `./judge` has it, a missing file counts as empty, and one that cannot be read
/// leaves no verdict.
pub fn judge(folder: &Path, limits: Limits) -> Finding {
    match try_judge(folder, limits) {
        Ok(finding) => finding,
        Err(note) => Finding {
            verdict: None,
            note,
        },
    }
}

fn try_judge(folder: &Path, limits: Limits) -> Result<Finding, String> {
    if folder.as_os_str().is_empty() {
        // Joined with a file's name it would be this process's own folder.
        return Err("no such folder: an empty name".to_string());
    }
    let mut notes = Vec::new();
    let mut take = |name, most| take(folder, name, most, limits, &mut notes);
    let case = take("case.bin", program::CASE_BYTES)?;
    let plan = take("plan.bin", program::PLAN_BYTES)?;
    let verdict = match limits {
        Limits::Program => program::verdict(&case, &plan),
        Limits::Library => in_full(&case, &plan)?,
    };
    Ok(Finding {
        verdict: Some(verdict),
        note: notes.join("; "),
    })
}

/// Is it a folder? Asked where a file of it is not found.
fn enter(folder: &Path) -> Result<(), String> {
    match fs::metadata(folder) {
        Ok(found) if found.is_dir() => Ok(()),
        Ok(_) => Err("not a folder".to_string()),
        Err(error) if error.kind() == ErrorKind::NotFound => Err("no such folder".to_string()),
        Err(error) => Err(format!("cannot be entered: {error}")),
    }
}

/// A file's bytes: under the program's limits at most one byte past its limit, which is enough to tell that it is too long.
fn take(
    folder: &Path,
    name: &str,
    most: usize,
    limits: Limits,
    notes: &mut Vec<String>,
) -> Result<Vec<u8>, String> {
    let path = folder.join(name);
    let unreadable = |error| format!("{name} cannot be read: {error}");
    let length = match fs::metadata(&path) {
        Ok(found) if found.is_file() => usize::try_from(found.len()).unwrap_or(usize::MAX),
        Ok(_) => return Err(format!("{name} is not a file")),
        // A link that leads nowhere is no missing file.
        Err(error) if error.kind() == ErrorKind::NotFound && path.symlink_metadata().is_err() => {
            enter(folder)?;
            notes.push(format!("{name} is missing and counts as empty"));
            return Ok(Vec::new());
        }
        Err(error) => return Err(enter(folder).err().unwrap_or_else(|| unreadable(error))),
    };
    let wanted = match limits {
        Limits::Program => most + 1,
        Limits::Library => usize::MAX,
    };
    let bytes = contents(&path, length, wanted).map_err(unreadable)?;
    if limits == Limits::Program && bytes.len() > most {
        notes.push(format!("{name} has more than {most} bytes"));
    }
    Ok(bytes)
}

/// A file's first bytes, as many as are wanted; it is expected to have this length.
fn contents(path: &Path, length: usize, wanted: usize) -> std::io::Result<Vec<u8>> {
    let mut bytes = Vec::new();
    // The reader asks once more for bytes at the end.
    bytes.try_reserve_exact(length.min(wanted).saturating_add(1))?;
    File::open(path)?
        .take(wanted as u64)
        .read_to_end(&mut bytes)?;
    Ok(bytes)
}

/// The verdict with a place for every number that the bytes can hold.
fn in_full(case: &[u8], plan: &[u8]) -> Result<Verdict, String> {
    let mut case_list = places(case.len())?;
    let mut plan_list = places(plan.len())?;
    let answer = gasplan::judge_bytes(case, plan, &mut case_list, &mut plan_list);
    Ok(Verdict::Judged(answer))
}

/// A number takes a byte at least.
fn places(count: usize) -> Result<Vec<i64>, String> {
    let mut list = Vec::new();
    let room = list.try_reserve_exact(count);
    room.map_err(|error| format!("no room for {count} numbers: {error}"))?;
    list.resize(count, 0);
    Ok(list)
}
