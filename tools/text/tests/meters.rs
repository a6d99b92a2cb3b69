//! The records of two meters in a folder: texts and binary files, beside a case or without one.

mod common;

use std::fs;
use std::path::PathBuf;

use common::{CASE, PLAN, names};
use gasplan_text::files::{check, one_to_bin, to_bin, to_text};

const SENDER: &str = "meter\n60 5\n";
const RECEIVER: &str = "meter\n60 5\n7 -1\n";

fn folder(name: &str, texts: &[(&str, &str)]) -> PathBuf {
    let files: Vec<(&str, &[u8])> = texts
        .iter()
        .map(|(name, text)| (*name, text.as_bytes()))
        .collect();
    common::folder("meters", name, &files)
}

#[test]
fn two_meters_go_to_binary_and_back() {
    let folder = folder("two", &[("sender.txt", SENDER), ("receiver.txt", RECEIVER)]);
    let done = to_bin(&folder).unwrap();
    let expected = [
        "sender.bin: 2 numbers, 2 bytes",
        "receiver.bin: 4 numbers, 4 bytes",
    ];
    assert_eq!(done, expected);
    assert_eq!(fs::read(folder.join("sender.bin")).unwrap(), [120, 10]);
    let expected = [
        "sender.txt and sender.bin: the same 2 numbers",
        "receiver.txt and receiver.bin: the same 4 numbers",
    ];
    assert_eq!(check(&folder).unwrap(), expected);
    let error = to_text(&folder).unwrap_err();
    assert!(
        error.contains("sender.txt is there already: move it away first"),
        "{error}"
    );
    for name in ["sender.txt", "receiver.txt"] {
        fs::remove_file(folder.join(name)).unwrap();
    }
    let expected = ["sender.txt: 4 lines", "receiver.txt: 5 lines"];
    assert_eq!(to_text(&folder).unwrap(), expected);
    assert_eq!(names(&folder).len(), 4);
    assert_eq!(check(&folder).unwrap().len(), 2);
}

#[test]
fn one_meter_goes_alone() {
    let folder = folder("one", &[("receiver.txt", RECEIVER)]);
    assert_eq!(to_bin(&folder).unwrap().len(), 1);
    assert_eq!(check(&folder).unwrap().len(), 1);
    fs::remove_file(folder.join("receiver.txt")).unwrap();
    assert_eq!(to_text(&folder).unwrap(), ["receiver.txt: 5 lines"]);
    assert_eq!(names(&folder), ["receiver.bin", "receiver.txt"]);
    for name in ["receiver.bin", "receiver.txt"] {
        let kept = fs::read(folder.join(name)).unwrap();
        fs::remove_file(folder.join(name)).unwrap();
        let error = check(&folder).unwrap_err();
        assert!(error.contains(&format!("{name}: No such file")), "{error}");
        fs::write(folder.join(name), kept).unwrap();
    }
}

#[test]
fn meters_stand_beside_a_case() {
    let texts = [
        ("case.txt", CASE),
        ("plan.txt", PLAN),
        ("sender.txt", SENDER),
    ];
    let folder = folder("beside", &texts);
    assert_eq!(to_bin(&folder).unwrap().len(), 3);
    assert_eq!(check(&folder).unwrap().len(), 3);
    for (name, _) in texts {
        fs::remove_file(folder.join(name)).unwrap();
    }
    assert_eq!(to_text(&folder).unwrap().len(), 3);
    assert_eq!(check(&folder).unwrap().len(), 3);
    // A plan is still due where there is a case, and a case where there is a plan.
    for (name, other) in [("plan", "case"), ("case", "plan")] {
        let [text, binary] = ["txt", "bin"].map(|end| folder.join(format!("{name}.{end}")));
        let kept = [&text, &binary].map(|path| fs::read(path).unwrap());
        fs::remove_file(&text).unwrap();
        fs::remove_file(&binary).unwrap();
        let error = check(&folder).unwrap_err();
        let missing = format!("{name}.bin: No such file");
        assert!(error.contains(&missing), "{other} alone: {error}");
        fs::write(&text, &kept[0]).unwrap();
        fs::write(&binary, &kept[1]).unwrap();
    }
}

#[test]
fn a_folder_without_any_is_told() {
    let folder = folder("none", &[("other.txt", SENDER)]);
    let error = to_bin(&folder).unwrap_err();
    let expected = "no case.txt, plan.txt, sender.txt or receiver.txt in ";
    assert!(error.starts_with(expected), "{error}");
    for error in [to_text(&folder), check(&folder)].map(Result::unwrap_err) {
        assert!(error.contains("case.bin: No such file"), "{error}");
    }
}

#[test]
fn a_bad_record_leaves_every_file() {
    let texts = [
        ("case.txt", CASE),
        ("sender.txt", SENDER),
        ("receiver.txt", "meter\n60\n7 -1\n"),
        ("case.bin", "old"),
        ("sender.bin", "old"),
    ];
    let folder = folder("bad", &texts);
    let error = to_bin(&folder).unwrap_err();
    let expected = "receiver.txt: line 2, column 3: expected a whole number for grams of row 0";
    assert!(error.contains(expected), "{error}");
    for name in ["case.bin", "sender.bin"] {
        assert_eq!(fs::read(folder.join(name)).unwrap(), b"old", "{name}");
    }
    assert_eq!(names(&folder).len(), texts.len());
}

#[test]
fn a_record_is_told_by_its_first_word() {
    let folder = folder("words", &[("sender.txt", CASE), ("x.txt", SENDER)]);
    let error = to_bin(&folder).unwrap_err();
    let expected = "sender.txt: line 1, column 1: expected `meter` or `numbers`, found `case`";
    assert!(error.ends_with(expected), "{error}");
    let [text, case, record] = ["x.txt", "case.bin", "receiver.bin"].map(|it| folder.join(it));
    let error = one_to_bin(&text, &case).unwrap_err();
    assert!(
        error.ends_with("expected `case` or `numbers`, found `meter`"),
        "{error}"
    );
    one_to_bin(&text, &record).unwrap();
    assert_eq!(fs::read(&record).unwrap(), [120, 10]);
    fs::write(&text, CASE).unwrap();
    let error = one_to_bin(&text, &record).unwrap_err();
    assert!(
        error.ends_with("expected `meter` or `numbers`, found `case`"),
        "{error}"
    );
}

#[test]
fn a_difference_is_named_by_its_row() {
    let folder = folder("difference", &[("sender.txt", RECEIVER)]);
    to_bin(&folder).unwrap();
    fs::write(folder.join("sender.txt"), "numbers\n60\n5\n7\n8\n").unwrap();
    let error = check(&folder).unwrap_err();
    let expected = "sender.bin: number 3 (row 1 grams) is -1 in the bytes and 8 in the text";
    assert!(error.ends_with(expected), "{error}");
}
