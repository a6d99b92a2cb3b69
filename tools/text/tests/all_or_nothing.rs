//! Two texts become two binary files, or neither is touched.

mod common;

use std::fs;
use std::path::{Path, PathBuf};

use common::{CASE, PLAN, names};
use gasplan_text::files::{File, one_to_bin, to_bin, to_text};
use gasplan_text::{parse, parse_as};

const OLD: [(&str, [u8; 2]); 2] = [("case.bin", [2, 4]), ("plan.bin", [6, 8])];

/// A folder with two texts and old binary files.
fn folder(name: &str, case: &str, plan: &str) -> PathBuf {
    let [old_case, old_plan] = &OLD;
    let files: [(&str, &[u8]); 4] = [
        ("case.txt", case.as_bytes()),
        ("plan.txt", plan.as_bytes()),
        (old_case.0, &old_case.1),
        (old_plan.0, &old_plan.1),
    ];
    common::folder("all-or-nothing", name, &files)
}

/// Are the binary files the old ones, and is nothing left beside them?
fn untouched(folder: &Path) {
    for (name, bytes) in OLD {
        assert_eq!(fs::read(folder.join(name)).unwrap(), bytes, "{name}");
    }
    let all = ["case.bin", "case.txt", "plan.bin", "plan.txt"];
    assert_eq!(names(folder), all);
}

#[test]
fn good_texts_replace_both_files() {
    let folder = folder("good", CASE, PLAN);
    let lines = to_bin(&folder).unwrap();
    assert_eq!(
        lines,
        [
            "case.bin: 15 numbers, 15 bytes",
            "plan.bin: 8 numbers, 8 bytes"
        ]
    );
    assert_eq!(
        fs::read(folder.join("case.bin")).unwrap()[..4],
        [2, 2, 0, 0]
    );
    assert_eq!(
        fs::read(folder.join("plan.bin")).unwrap(),
        [2, 2, 100, 0, 0, 0, 0, 0]
    );
    assert_eq!(names(&folder).len(), 4);
}

#[test]
fn a_bad_text_leaves_both_files() {
    let cut = PLAN.replace("\n50", "");
    for (case, plan, bad) in [
        (CASE, cut.as_str(), "plan.txt"),
        ("case\nx\n", PLAN, "case.txt"),
    ] {
        let folder = folder("bad", case, plan);
        let error = to_bin(&folder).unwrap_err();
        assert!(error.contains(&format!("{bad}: line")), "{error}");
        untouched(&folder);
    }
}

#[test]
fn a_file_that_cannot_be_written_leaves_the_other() {
    let folder = folder("folder", CASE, PLAN);
    fs::remove_file(folder.join("plan.bin")).unwrap();
    fs::create_dir(folder.join("plan.bin")).unwrap();
    let error = to_bin(&folder).unwrap_err();
    assert!(error.contains("plan.bin: "), "{error}");
    fs::remove_dir(folder.join("plan.bin")).unwrap();
    fs::write(folder.join("plan.bin"), OLD[1].1).unwrap();
    untouched(&folder);
}

#[test]
fn a_read_only_file_is_kept() {
    let folder = folder("read-only", CASE, PLAN);
    let plan = folder.join("plan.bin");
    let mut permissions = fs::metadata(&plan).unwrap().permissions();
    permissions.set_readonly(true);
    fs::set_permissions(&plan, permissions).unwrap();
    let error = to_bin(&folder).unwrap_err();
    assert!(error.ends_with("plan.bin: it is read-only"), "{error}");
    untouched(&folder);
}

#[test]
fn texts_are_told_by_their_first_word() {
    let folder = folder("swapped", PLAN, PLAN);
    let error = to_bin(&folder).unwrap_err();
    let expected = "case.txt: line 1, column 1: expected `case` or `numbers`, found `plan`";
    assert!(error.ends_with(expected), "{error}");
    untouched(&folder);
    fs::write(folder.join("case.txt"), CASE).unwrap();
    fs::write(folder.join("plan.txt"), CASE).unwrap();
    let error = to_bin(&folder).unwrap_err();
    let expected = "plan.txt: line 1, column 1: expected `plan` or `numbers`, found `case`";
    assert!(error.ends_with(expected), "{error}");
    untouched(&folder);
    assert_eq!(parse_as(File::Case, "numbers\n5\n"), Ok(vec![5]));
    assert_eq!(parse_as(File::Plan, "numbers\n5\n"), Ok(vec![5]));
}

#[test]
fn one_text_is_told_by_both_names() {
    let folder = folder("one", CASE, PLAN);
    let [case, plan, other] = ["case.txt", "plan.bin", "x.bin"].map(|name| folder.join(name));
    let error = one_to_bin(&case, &plan).unwrap_err();
    assert!(
        error.contains("expected `plan` or `numbers`, found `case`"),
        "{error}"
    );
    untouched(&folder);
    one_to_bin(&case, &other).unwrap();
    assert_eq!(fs::read(&other).unwrap().len(), 15);
    fs::write(&case, PLAN).unwrap();
    let error = one_to_bin(&case, &other).unwrap_err();
    assert!(
        error.contains("expected `case` or `numbers`, found `plan`"),
        "{error}"
    );
}

#[test]
fn texts_come_together_too() {
    let folder = folder("to-text", CASE, PLAN);
    to_bin(&folder).unwrap();
    fs::remove_file(folder.join("plan.txt")).unwrap();
    let error = to_text(&folder).unwrap_err();
    assert!(error.contains("case.txt is there already"), "{error}");
    assert!(!folder.join("plan.txt").exists());
    assert_eq!(fs::read_to_string(folder.join("case.txt")).unwrap(), CASE);
}

#[test]
fn a_mark_before_the_first_word_does_not_count() {
    assert_eq!(parse(&format!("\u{feff}{CASE}")), parse(CASE));
}
