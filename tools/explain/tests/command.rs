//! The command itself: what it prints and how it ends.

mod common;

use std::fs;
use std::io;
use std::path::Path;
use std::process::{Command, Output, Stdio};

use common::root;

fn command(words: &[&str]) -> Command {
    let mut command = Command::new(env!("CARGO_BIN_EXE_explain"));
    command.args(words).current_dir(root());
    command
}

fn run(words: &[&str]) -> Output {
    command(words).output().expect("the command runs")
}

/// What is said on standard error.
fn error(done: &Output) -> String {
    String::from_utf8_lossy(&done.stderr).into_owned()
}

#[test]
fn the_status_tells_the_verdict() {
    assert_eq!(run(&["examples/two-nodes"]).status.code(), Some(0));
    assert_eq!(run(&["examples/incident"]).status.code(), Some(1));
    let ledger = ["examples/two-nodes", "--ledger", "0", "1", "0"];
    assert_eq!(run(&ledger).status.code(), Some(1));
}

#[test]
fn a_picture_goes_to_its_file() {
    let file = Path::new(env!("CARGO_TARGET_TMPDIR")).join("incident.svg");
    let _ = fs::remove_file(&file);
    let name = file.display().to_string();
    run(&["examples/incident", "--svg", &name]);
    let picture = fs::read_to_string(&file).expect("the picture is there");
    assert!(picture.contains("refused 31 2 0"));
}

#[test]
fn two_files_can_be_named() {
    let done = run(&["examples/line/case.bin", "examples/day/plan.bin"]);
    assert!(done.stdout.starts_with(b"refused 20 0 0\n"));
}

#[test]
fn a_missing_file_counts_as_empty() {
    let done = run(&["examples/rust"]);
    assert!(done.stdout.starts_with(b"refused 10 0 0\n"));
    let said = error(&done);
    assert!(
        said.contains("case.bin is missing and counts as empty"),
        "{said}"
    );
}

#[test]
fn files_and_options_stand_in_any_order() {
    let before = run(&["--all", "examples/incident", "--margins"]);
    let after = run(&["examples/incident", "--margins", "--all"]);
    assert_eq!(before.status.code(), Some(1));
    assert_eq!(before.stdout, after.stdout);
}

#[test]
fn help_is_an_answer() {
    for words in [&["-h"][..], &["--help"], &["examples/line", "--svg", "-h"]] {
        let done = run(words);
        assert_eq!(done.status.code(), Some(0), "{words:?}");
        assert!(done.stdout.starts_with(b"usage: explain FOLDER"));
        assert!(done.stderr.is_empty());
    }
}

#[test]
fn output_that_cannot_be_written_is_an_error() {
    for words in [
        &["examples/day"][..],
        &["examples/incident", "--all"],
        &["--help"],
    ] {
        let full = fs::File::options().write(true).open("/dev/full").unwrap();
        let done = command(words)
            .stdout(full)
            .stderr(Stdio::piped())
            .output()
            .unwrap();
        assert_eq!(done.status.code(), Some(2), "{words:?}");
        assert!(error(&done).starts_with("standard output: No space left"));
        let (reader, writer) = io::pipe().unwrap();
        drop(reader);
        let done = command(words)
            .stdout(writer)
            .stderr(Stdio::piped())
            .output()
            .unwrap();
        assert_eq!(done.status.code(), Some(2), "{words:?}");
        assert!(error(&done).starts_with("standard output: Broken pipe"));
    }
}

#[test]
fn errors_that_cannot_be_written_leave_the_status() {
    for words in [&["--what"][..], &["examples/rust"]] {
        let full = fs::File::options().write(true).open("/dev/full").unwrap();
        let done = command(words)
            .stdout(Stdio::piped())
            .stderr(full)
            .output()
            .unwrap();
        let wanted = if words[0] == "--what" { 2 } else { 1 };
        assert_eq!(done.status.code(), Some(wanted), "{words:?}");
    }
}

#[test]
fn a_picture_that_cannot_be_written_is_an_error() {
    let done = run(&["examples/line", "--svg", "/dev/full"]);
    assert_eq!(done.status.code(), Some(2));
    assert!(done.stdout.starts_with(b"accepted "));
    assert!(error(&done).starts_with("/dev/full: No space left"));
}

#[test]
fn a_step_is_one_of_the_picture_s() {
    let file = Path::new(env!("CARGO_TARGET_TMPDIR")).join("step.svg");
    let name = file.display().to_string();
    for step in ["0", "-1", "7", "99999999999999999999", "two"] {
        let _ = fs::remove_file(&file);
        let done = run(&["examples/line", "--svg", &name, "--step", step]);
        assert_eq!(done.status.code(), Some(2), "{step}");
        assert!(done.stdout.is_empty() && !file.exists(), "{step}");
    }
    let done = run(&["examples/line", "--svg", &name, "--step", "7"]);
    assert_eq!(error(&done), "--step 7: the case has the steps 1 to 6\n");
    let done = run(&["examples/line", "--step", "3"]);
    assert_eq!(done.status.code(), Some(2));
    assert!(error(&done).starts_with("--step is for the picture: say --svg FILE too\n"));
    let done = run(&["examples/line", "--svg", &name, "--step", "6"]);
    assert_eq!(done.status.code(), Some(0));
    let picture = fs::read_to_string(&file).unwrap();
    assert!(picture.contains("Numbers are those of step 6, "));
}

#[test]
fn other_words_get_the_usage() {
    let wrong: [&[&str]; 9] = [
        &[],
        &["examples/line", "--svg"],
        &["examples/line", "--svg", "a", "--svg", "b"],
        &["examples/line", "--change", "plan", "step 1 arc 0 b"],
        &["a", "b", "c"],
        &["examples/line", "--ledger", "0", "1"],
        &["examples/line", "--ledger", "x", "0", "1"],
        &["examples/line", "--append", "file", "00"],
        &["examples/line", "--what"],
    ];
    for words in wrong {
        let done = run(words);
        assert_eq!(done.status.code(), Some(2), "{words:?}");
        assert!(error(&done).contains("usage: explain"), "{words:?}");
    }
    let unknown = ["examples/line", "--change", "plan", "step 9 arc 0 b", "1"];
    let done = run(&unknown);
    assert_eq!(done.status.code(), Some(2));
    assert!(error(&done).contains("no field of the plan is called 'step 9 arc 0 b'"));
}
