//! Folders to judge, and the command run on them.
#![allow(dead_code)] // each test uses a part

use std::env::temp_dir;
use std::fs;
use std::io::{Write, stdout};
use std::ops::Deref;
use std::path::{Path, PathBuf};
use std::process::{Command, Output, id};

use inputs::aimed::AIMS;
use inputs::bytes::{BYTES_AIMS, encode};
use inputs::damage::{any_list, damage_bytes, damage_list};
use inputs::generate::{Size, accepted, of_size};
use inputs::{Pair, Rng};

pub const COMMAND: &str = env!("CARGO_BIN_EXE_judge-many");

/// The most bytes that the program takes.
pub const LIMITS: [usize; 2] = [4_096, 8_192];

pub fn root() -> PathBuf {
    let root = Path::new(env!("CARGO_MANIFEST_DIR")).join("../..");
    root.canonicalize().expect("the repository")
}

/// An empty folder of this name.
pub fn scratch(name: &str) -> PathBuf {
    let folder = Path::new(env!("CARGO_TARGET_TMPDIR")).join(name);
    let _ = fs::remove_dir_all(&folder);
    fs::create_dir_all(&folder).expect("a folder to write into");
    folder
}

/// An empty folder with links, as long as this is held: outside the repository, in which the prover takes no link.
pub struct Outside(PathBuf);

pub fn outside(name: &str) -> Outside {
    let folder = temp_dir().join(format!("gasplan-{name}-{}", id()));
    fs::create_dir(&folder).expect("a folder to write into");
    Outside(folder)
}

impl Deref for Outside {
    type Target = Path;

    fn deref(&self) -> &Path {
        &self.0
    }
}

impl Drop for Outside {
    fn drop(&mut self) {
        let _ = fs::remove_dir_all(&self.0);
    }
}

pub fn judge_many(words: &[&str]) -> Output {
    let mut command = Command::new(COMMAND);
    let command = command.args(words).current_dir(root());
    command.output().expect("the command runs")
}

/// Says why a test is left out, also where test output is kept back.
pub fn skipped(why: &str) {
    writeln!(stdout(), "skipped: {why}").expect("a line");
}

pub fn text(bytes: &[u8]) -> String {
    String::from_utf8(bytes.to_vec()).expect("text")
}

/// case.bin and plan.bin; a missing one is none.
pub type Files = [Option<Vec<u8>>; 2];

/// Writes a folder for each and a list of them; gives their names. What is there already is left, since seeds give the same again
/// and files are slow to go.
pub fn write_folders(place: &str, all: &[Files]) -> (PathBuf, Vec<String>) {
    let place = Path::new(env!("CARGO_TARGET_TMPDIR")).join(place);
    let mut names = Vec::new();
    for (index, files) in all.iter().enumerate() {
        let folder = place.join(index.to_string());
        fs::create_dir_all(&folder).expect("a folder");
        for (name, bytes) in ["case.bin", "plan.bin"].iter().zip(files) {
            let path = folder.join(name);
            match (fs::read(&path).ok(), bytes) {
                (there, due) if there == *due => {}
                (_, Some(bytes)) => fs::write(path, bytes).expect("a file"),
                (_, None) => fs::remove_file(path).expect("a file that goes"),
            }
        }
        names.push(folder.to_str().expect("a name in UTF-8").to_string());
    }
    let list: String = names.iter().map(|name| format!("{name}\n")).collect();
    let path = place.join("folders.txt");
    fs::write(&path, list).expect("the list");
    (path, names)
}

/// Files of every sort, from a seed: accepted, refused by aim, damaged, missing, at the limits and past them.
pub fn any_files(seed: u64) -> Files {
    let mut rng = Rng::new(seed);
    let pair = match seed % 200 {
        0 => of_size(&mut rng, Size::LARGEST),
        _ => accepted(&mut rng),
    };
    let whole = || [bytes_of(&pair.case.list()), bytes_of(&pair.plan.list())];
    let files = match seed % 8 {
        0 | 1 => whole(),
        2 | 3 => aimed(&mut rng, &pair).unwrap_or_else(whole),
        4 => {
            let mut lists = [pair.case.list(), pair.plan.list()];
            damage_list(&mut rng, &mut lists[1 - (seed / 8 % 3 / 2) as usize]);
            lists.map(|list| bytes_of(&list))
        }
        5 => {
            let mut files = whole();
            damage_bytes(&mut rng, &mut files[(seed / 8 % 2) as usize]);
            files
        }
        6 => aimed_bytes(&mut rng, whole(), &pair),
        _ => return odd(&mut rng, whole()),
    };
    files.map(Some)
}

fn bytes_of(list: &[i64]) -> Vec<u8> {
    encode(list).bytes
}

/// One of the changes for which the pair has a place.
fn aimed(rng: &mut Rng, pair: &Pair) -> Option<[Vec<u8>; 2]> {
    let made = (0..40).find_map(|_| AIMS[rng.below(AIMS.len())].1(rng, pair))?;
    Some([bytes_of(&made.case), bytes_of(&made.plan)])
}

/// A string that cannot be read.
fn aimed_bytes(rng: &mut Rng, mut files: [Vec<u8>; 2], pair: &Pair) -> [Vec<u8>; 2] {
    let lists = [pair.case.list(), pair.plan.list()];
    let hit = rng.below(2);
    let (_, aim) = BYTES_AIMS[rng.below(BYTES_AIMS.len())];
    if let Some(made) = aim(rng, &lists[hit]) {
        files[hit] = made.bytes;
    }
    files
}

/// A file left out, empty, of any numbers, filled up to its limit, or one byte past it.
fn odd(rng: &mut Rng, files: [Vec<u8>; 2]) -> Files {
    let mut files = files.map(Some);
    let hit = rng.below(2);
    files[hit] = match rng.below(6) {
        0 => None,
        1 => Some(Vec::new()),
        2 => Some(bytes_of(&any_list(rng, 2_000))),
        3 => Some(vec![0; LIMITS[hit] + 1]),
        _ => files[hit].take().map(|mut bytes| {
            bytes.resize(LIMITS[hit], 0);
            bytes
        }),
    };
    files
}

/// What the second checker says of these files with the program's limits, or with a place for every number.
pub fn second_line(files: &Files, limits: bool) -> String {
    let [case, plan] = files;
    if limits {
        return second::program::line(case.as_deref(), plan.as_deref());
    }
    let [case, plan] = [case, plan].map(|bytes| bytes.as_deref().unwrap_or_default());
    let mut lists = [case, plan].map(|bytes| vec![0; bytes.len()]);
    let [case_list, plan_list] = &mut lists;
    let verdict = second::call::judge_bytes(case, plan, case_list, plan_list);
    second::verdict::line(&verdict)
}
