//! Bytes and texts that say different things, and texts that are judged themselves.

mod common;

use std::fs;
use std::path::{Path, PathBuf};
use std::process::{Command, Output};

use common::root;

const FILES: [&str; 4] = ["case.bin", "case.txt", "plan.bin", "plan.txt"];

/// A copy of the example `two-nodes`.
fn copy(name: &str) -> PathBuf {
    let folder = Path::new(env!("CARGO_TARGET_TMPDIR"))
        .join("sources")
        .join(name);
    let _ = fs::remove_dir_all(&folder);
    fs::create_dir_all(&folder).expect("a folder to write into");
    for file in FILES {
        fs::copy(
            root().join("examples/two-nodes").join(file),
            folder.join(file),
        )
        .unwrap();
    }
    folder
}

/// Changes a text in one place.
fn edit(folder: &Path, file: &str, from: &str, to: &str) {
    let path = folder.join(file);
    let text = fs::read_to_string(&path).unwrap();
    assert_eq!(text.matches(from).count(), 1, "{from}");
    fs::write(path, text.replace(from, to)).unwrap();
}

struct Done {
    status: i32,
    out: String,
    error: String,
}

fn run(folder: &Path, words: &[&str]) -> Done {
    let mut command = Command::new(env!("CARGO_BIN_EXE_explain"));
    let Output {
        status,
        stdout,
        stderr,
    } = command.current_dir(folder).args(words).output().unwrap();
    Done {
        status: status.code().unwrap(),
        out: String::from_utf8(stdout).unwrap(),
        error: String::from_utf8(stderr).unwrap(),
    }
}

const ACCEPTED: &str = "accepted 0 0 0 0 599988 611988\n";

#[test]
fn texts_that_say_the_same_are_not_mentioned() {
    let folder = copy("same");
    for words in [
        &["."][..],
        &[".", "--text"],
        &["case.bin", "plan.bin"],
        &["case.txt", "plan.txt", "--text"],
    ] {
        let done = run(&folder, words);
        assert_eq!((done.status, done.error.as_str()), (0, ""), "{words:?}");
        assert!(done.out.starts_with(ACCEPTED));
    }
}

#[test]
fn stale_bytes_are_judged_with_a_warning() {
    let folder = copy("stale");
    edit(&folder, "plan.txt", "b 900", "b 901");
    for words in [["."].as_slice(), &["case.bin", "plan.bin"]] {
        let done = run(&folder, words);
        assert!(done.status == 0 && done.out.starts_with(ACCEPTED));
        let wanted = "plan.txt says something else: number 15 (step 1 arc 0 b) is 900 in the bytes and 901 in the text (--text judges the text)\n";
        assert!(
            done.error.starts_with("warning: ") && done.error.ends_with(wanted),
            "{}",
            done.error
        );
        assert_eq!(done.error.lines().count(), 1);
    }
}

#[test]
fn the_text_is_judged_where_that_is_asked_for() {
    let folder = copy("text");
    edit(&folder, "plan.txt", "b 900", "b 901");
    for words in [
        [".", "--text"].as_slice(),
        &["--text", "case.txt", "plan.txt"],
    ] {
        let done = run(&folder, words);
        assert!(done.status == 1 && done.out.starts_with("refused 28 1 0\n"));
        assert!(
            done.error.contains("plan.txt is judged, but "),
            "{}",
            done.error
        );
        assert!(
            done.error
                .contains("plan.bin says something else: number 15 (step 1 arc 0 b)")
        );
    }
    assert!(
        run(&folder, &["."]).out.starts_with(ACCEPTED),
        "bytes are as they were"
    );
}

#[test]
fn every_difference_is_seen() {
    let folder = copy("both");
    edit(&folder, "case.txt", "mass-tolerance 0", "mass-tolerance 60");
    edit(
        &folder,
        "case.txt",
        "pressure-tolerance 0",
        "pressure-tolerance 1",
    );
    fs::write(folder.join("plan.txt"), "numbers\n1\n").unwrap();
    let done = run(&folder, &["."]);
    let lines: Vec<&str> = done.error.lines().collect();
    assert_eq!(lines.len(), 2, "{}", done.error);
    assert!(lines[0].contains(
        "number 5 (mass-tolerance) is 0 in the bytes and 60 in the text; 2 numbers differ in all"
    ));
    assert!(lines[1].contains(
        "number 1 (steps) is 1 in the bytes and missing in the text; 17 numbers differ in all"
    ));
}

#[test]
fn a_text_that_cannot_be_read_is_another_too() {
    let folder = copy("unreadable");
    edit(&folder, "plan.txt", "b 900", "b nine");
    let done = run(&folder, &["."]);
    assert!(
        done.status == 0 && done.error.contains("plan.txt: line "),
        "{}",
        done.error
    );
    let done = run(&folder, &[".", "--text"]);
    assert!(done.status == 2 && done.out.is_empty(), "{}", done.out);
    assert!(
        done.error
            .contains("expected a whole number for b of arc 0 at step 1")
    );
}

#[test]
fn a_plan_as_case_txt_is_refused_by_its_first_word() {
    let folder = copy("swapped");
    fs::copy(folder.join("plan.txt"), folder.join("case.txt")).unwrap();
    let done = run(&folder, &[".", "--text"]);
    assert_eq!((done.status, done.out.as_str()), (2, ""));
    let wanted = "case.txt: line 1, column 1: expected `case` or `numbers`, found `plan`\n";
    assert!(done.error.ends_with(wanted), "{}", done.error);
    let done = run(&folder, &["."]);
    assert!(
        done.status == 0
            && done
                .error
                .contains("expected `case` or `numbers`, found `plan`")
    );
}

#[test]
fn files_that_are_missing_are_named() {
    let folder = copy("missing");
    fs::remove_file(folder.join("plan.bin")).unwrap();
    let done = run(&folder, &["."]);
    assert!(done.out.starts_with("refused 20 0 0\n"));
    assert!(
        done.error.contains(
            "plan.bin is missing and counts as empty; ./plan.txt is there, and --text judges it"
        ),
        "{}",
        done.error
    );
    let done = run(&folder, &["case.bin", "plan.bin"]);
    assert!(
        done.status == 2 && done.error.starts_with("plan.bin: No such file"),
        "{}",
        done.error
    );
    fs::remove_file(folder.join("case.txt")).unwrap();
    let done = run(&folder, &[".", "--text"]);
    assert!(done.out.starts_with(ACCEPTED));
    assert!(
        done.error
            .contains("there is no ./case.txt; ./case.bin is judged"),
        "{}",
        done.error
    );
    fs::remove_file(folder.join("plan.txt")).unwrap();
    let done = run(&folder, &[".", "--text"]);
    assert!(
        done.status == 2
            && done
                .error
                .contains("there is no ./case.txt and no ./plan.txt")
    );
}

#[test]
fn bytes_and_texts_are_not_taken_for_each_other() {
    let folder = copy("kinds");
    let done = run(&folder, &["case.txt", "plan.txt"]);
    assert!(
        done.status == 2
            && done
                .error
                .contains("case.txt is a text: say --text to judge it")
    );
    let done = run(&folder, &["case.bin", "plan.bin", "--text"]);
    assert!(
        done.status == 2 && done.error.contains("case.bin is no text"),
        "{}",
        done.error
    );
    for nowhere in ["nowhere", "case.bin"] {
        let done = run(&folder, &[nowhere]);
        assert!(done.status == 2 && done.out.is_empty());
        assert!(
            done.error.contains(&format!("{nowhere} is no folder")),
            "{}",
            done.error
        );
    }
}
