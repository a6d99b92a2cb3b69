//! What is settled and seldom meant: the verdict and the status stay, and standard error says so.

mod common;

use std::fs;
use std::path::Path;

use common::{ask, folder, run, text, verdict};

/// The verdict of two files of a folder, with what standard error says.
fn settled(place: &Path, sender: &str, receiver: &str) -> (String, String) {
    let [sender, receiver] = [sender, receiver].map(|it| place.join(it).display().to_string());
    let done = run(&[&sender, &receiver, "--agreed", "2"]);
    assert_eq!(done.status.code(), Some(0), "{done:?}");
    let said = text(&done.stderr).replace(&format!("{}/", place.display()), "");
    (verdict(&done), said)
}

fn pair(verdict: &str, said: &str) -> (String, String) {
    (verdict.to_string(), said.to_string())
}

#[test]
fn no_time_in_both() {
    let files: [(&str, &[u8]); 3] = [
        ("seconds", b"meter\n3600 10\n7200 20\n"),
        ("hours", b"meter\n1 12\n2 25\n"),
        ("one", b"meter\n2 1\n3600 10\n"),
    ];
    let place = folder("no-common-time", &files);
    let words = "warning: no time is in both records: the total is the sum of the two\n";
    let sum = pair("settled 67 0 0 2 2", words);
    assert_eq!(settled(&place, "seconds", "hours"), sum);
    // One time in both is enough, agreed or cut.
    let agreed = pair("settled 31 1 0 1 1", "");
    assert_eq!(settled(&place, "seconds", "one"), agreed);
    let cut = pair("settled 23 0 1 1 1", "");
    assert_eq!(settled(&place, "hours", "one"), cut);
}

#[test]
fn one_record_without_rows() {
    let files: [(&str, &[u8]); 3] = [
        ("rows", b"meter\n3600 10\n"),
        ("none", b"meter\n"),
        ("none.bin", b""),
    ];
    let place = folder("no-rows", &files);
    let words =
        "warning: the receiver's record (none) has no rows: the total is the sender's own\n";
    let alone = pair("settled 10 0 0 1 0", words);
    assert_eq!(settled(&place, "rows", "none"), alone);
    let words =
        "warning: the sender's record (none.bin) has no rows: the total is the receiver's own\n";
    let alone = pair("settled 10 0 0 0 1", words);
    assert_eq!(settled(&place, "none.bin", "rows"), alone);
    // Two empty records settle to 0, and the verdict shows it.
    let nothing = pair("settled 0 0 0 0 0", "");
    assert_eq!(settled(&place, "none", "none.bin"), nothing);
}

#[test]
fn one_file_for_both() {
    let rows: &[u8] = b"meter\n3600 10\n";
    let place = folder("one-file", &[("a", rows), ("same", rows)]);
    fs::create_dir(place.join("in")).expect("a folder in it");
    let words = "warning: a is both records: one file is settled with itself\n";
    let itself = pair("settled 10 1 0 0 0", words);
    for path in ["a", "./a", "in/../a"] {
        assert_eq!(settled(&place, "a", path), itself, "{path}");
    }
    // Two files may say the same.
    let same = pair("settled 10 1 0 0 0", "");
    assert_eq!(settled(&place, "a", "same"), same);
    // It is said of a refusal too.
    let path = place.join("a").display().to_string();
    let done = run(&[&path, &path, "--agreed", "-1"]);
    assert_eq!(done.status.code(), Some(1));
    assert!(text(&done.stderr).ends_with("one file is settled with itself\n"));
}

/// Rows are spoken of where they were settled.
#[test]
fn a_refusal_has_no_warning_of_rows() {
    assert_eq!(ask(&[1, 5], &[2, 5], 0).warnings.len(), 1);
    for (sender, receiver) in [([1, 5], &[2, -5][..]), ([1, -5], &[])] {
        let answer = ask(&sender, receiver, 0);
        assert!(!answer.settled && answer.warnings.is_empty(), "{answer:?}");
    }
}
