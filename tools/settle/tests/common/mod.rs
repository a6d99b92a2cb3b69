//! The command, and records that are not in files.
#![allow(dead_code)]

use std::fs;
use std::path::{Path, PathBuf};
use std::process::{Command, Output};

use gasplan_text::files::Meter;
use settle::answer::{Answer, answer};
use settle::records::{Files, Record, Records};
use settle::request::Request;

pub const COMMAND: &str = env!("CARGO_BIN_EXE_settle");

pub fn root() -> PathBuf {
    Path::new(env!("CARGO_MANIFEST_DIR")).join("../..")
}

/// The command in the repository's root.
pub fn command(words: &[&str]) -> Command {
    let mut command = Command::new(COMMAND);
    command.args(words).current_dir(root());
    command
}

pub fn run(words: &[&str]) -> Output {
    command(words).output().expect("the command runs")
}

pub fn text(bytes: &[u8]) -> String {
    String::from_utf8_lossy(bytes).into_owned()
}

/// The first line of standard output.
pub fn verdict(done: &Output) -> String {
    text(&done.stdout).lines().next().unwrap_or("").to_string()
}

/// A folder of its own with these files and no other.
pub fn folder(name: &str, files: &[(&str, &[u8])]) -> PathBuf {
    let folder = Path::new(env!("CARGO_TARGET_TMPDIR")).join(name);
    let _ = fs::remove_dir_all(&folder);
    fs::create_dir_all(&folder).expect("a folder to write into");
    for (name, bytes) in files {
        fs::write(folder.join(name), bytes).unwrap();
    }
    folder
}

/// Two records as if read from `sender.txt` and `receiver.txt`.
pub fn records(sender: &[i64], receiver: &[i64]) -> Records {
    let record = |meter: Meter, list: &[i64]| Record {
        meter,
        path: format!("{}.txt", meter.name()).into(),
        list: list.to_vec(),
        changed: Vec::new(),
    };
    Records {
        sender: record(Meter::Sender, sender),
        receiver: record(Meter::Receiver, receiver),
    }
}

pub fn request(agreed: i64, rows: bool) -> Request {
    Request {
        files: Files::Folder(PathBuf::new()),
        agreed,
        rows,
        changes: Vec::new(),
    }
}

/// The answer on two records, with every row.
pub fn ask(sender: &[i64], receiver: &[i64], agreed: i64) -> Answer {
    let request = request(agreed, true);
    answer(&records(sender, receiver), &request).expect("an answer")
}
