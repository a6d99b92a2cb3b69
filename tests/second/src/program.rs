//! The program's one line.

use std::fs::File;
use std::io::{self, Read};
use std::path::Path;

use crate::call::judge_bytes;
use crate::verdict;

const CASE_BYTES: usize = 4_096;
const CASE_NUMBERS: usize = 1_500;
const PLAN_BYTES: usize = 8_192;
const PLAN_NUMBERS: usize = 4_000;

/// The line for the contents of case.bin and plan.bin; a missing file counts as empty.
pub fn line(case_file: Option<&[u8]>, plan_file: Option<&[u8]>) -> String {
    let case_bytes = case_file.unwrap_or_default();
    let plan_bytes = plan_file.unwrap_or_default();
    if case_bytes.len() > CASE_BYTES || plan_bytes.len() > PLAN_BYTES {
        return "too long".to_string();
    }
    let mut case_list = [0; CASE_NUMBERS];
    let mut plan_list = [0; PLAN_NUMBERS];
    let verdict = judge_bytes(case_bytes, plan_bytes, &mut case_list, &mut plan_list);
    verdict::line(&verdict)
}

/// The line for the files of a folder.
pub fn line_of_folder(folder: &Path) -> io::Result<String> {
    let case_file = contents(&folder.join("case.bin"), CASE_BYTES)?;
    let plan_file = contents(&folder.join("plan.bin"), PLAN_BYTES)?;
    Ok(line(case_file.as_deref(), plan_file.as_deref()))
}

/// At most one byte past the limit, which is enough to tell that a file is too long.
fn contents(path: &Path, limit: usize) -> io::Result<Option<Vec<u8>>> {
    let file = match File::open(path) {
        Ok(file) => file,
        Err(error) if error.kind() == io::ErrorKind::NotFound => return Ok(None),
        Err(error) => return Err(error),
    };
    let mut bytes = Vec::new();
    file.take(limit as u64 + 1).read_to_end(&mut bytes)?;
    Ok(Some(bytes))
}
