//! The command itself: what it prints and how it ends.

use std::fs;
use std::io;
use std::path::Path;
use std::process::{Command, Output, Stdio};

fn run(words: &[&str]) -> Output {
    let mut command = Command::new(env!("CARGO_BIN_EXE_gasplan-text"));
    command.args(words).output().expect("the command runs")
}

fn example(name: &str) -> String {
    let root = Path::new(env!("CARGO_MANIFEST_DIR")).join("../../examples");
    root.join(name).display().to_string()
}

#[test]
fn an_example_is_checked() {
    let done = run(&["check", &example("line")]);
    assert!(done.status.success());
    let said = String::from_utf8_lossy(&done.stdout);
    assert!(
        said.contains("case.txt and case.bin: the same 178 numbers"),
        "{said}"
    );
}

#[test]
fn a_plan_shows_its_parts() {
    let (case, plan) = (example("line/case.bin"), example("line/plan.bin"));
    let done = run(&["to-text", "plan", &plan, &case]);
    let said = String::from_utf8_lossy(&done.stdout).into_owned();
    assert!(
        said.starts_with("plan 6 nodes 6 arcs 1 stations\n"),
        "{said}"
    );
    assert!(said.contains("# step 2 (3600 s to 7200 s), node 0 (source)\n"));
    assert!(said.contains("# step 5, compressor 0 (node 2 to 3, station 0)\n"));
    assert!(said.contains("setting 2                   # backward\n"));
    assert!(said.contains("machines {0 1}\n"));
}

#[test]
fn a_case_shows_its_parts() {
    let done = run(&["to-text", "case", &example("line/case.bin")]);
    let said = String::from_utf8_lossy(&done.stdout).into_owned();
    let parts = [
        "# head\nedition 1\n",
        "# times: the end of each step\ntime 3600 ",
        "# node 3: inner\nkind inner\n",
        "# arc 1: shortcut from node 2 to node 3\nkind shortcut\n",
        "# station 0\ndirections 2\n",
        "# station 0 direction 1\nentry {3}\nexit {2}\n",
        "# station 0 state 0\ndirections {0 1}\n",
        "off {1}                     # arc 1\n",
        "# station 0 machine 1\nflow 40000 ",
    ];
    for part in parts {
        assert!(said.contains(part), "{part}");
    }
}

#[test]
fn a_record_shows_its_rows() {
    let folder = Path::new(env!("CARGO_TARGET_TMPDIR")).join("record");
    fs::create_dir_all(&folder).expect("a folder to write into");
    let file = folder.join("any.bin");
    fs::write(&file, [120, 10, 1, 0x80, 1]).unwrap();
    let done = run(&["to-text", "meter", &file.display().to_string()]);
    assert_eq!(done.status.code(), Some(0));
    let said = String::from_utf8_lossy(&done.stdout).into_owned();
    let rows = "time 60  grams  5  # row 0\ntime -1  grams 64  # row 1\n";
    assert!(
        said.starts_with("meter\n") && said.ends_with(rows),
        "{said}"
    );
}

#[test]
fn an_empty_out_bound_says_what_it_stands_for() {
    let said = |name: &str| {
        let done = run(&["to-text", "case", &example(name)]);
        String::from_utf8_lossy(&done.stdout).into_owned()
    };
    let empty = said("empty-bound/case.bin");
    let line = "out-bound 0                 # mbar, 0 stands for acthigh of the out end\n";
    assert!(empty.contains(line), "{empty}");
    let given = said("line/case.bin");
    assert!(
        given.contains("out-bound 66000             # mbar\n"),
        "{given}"
    );
}

#[test]
fn a_bad_text_is_pointed_at() {
    let folder = Path::new(env!("CARGO_TARGET_TMPDIR")).join("bad");
    fs::create_dir_all(&folder).expect("a folder to write into");
    fs::write(folder.join("case.txt"), "case\nedition one\n").unwrap();
    let done = run(&["to-bin", &folder.display().to_string()]);
    assert_eq!(done.status.code(), Some(2));
    let said = String::from_utf8_lossy(&done.stderr);
    let expected = "case.txt: line 2, column 9: expected a whole number for edition";
    assert!(said.contains(expected), "{said}");
    assert!(!folder.join("case.bin").exists());
}

#[test]
fn a_file_past_the_program_s_limits_is_noted() {
    let folder = Path::new(env!("CARGO_TARGET_TMPDIR")).join("long");
    fs::create_dir_all(&folder).expect("a folder to write into");
    fs::write(
        folder.join("case.txt"),
        "numbers\n".to_string() + &"0\n".repeat(1_501),
    )
    .unwrap();
    let done = run(&["to-bin", &folder.display().to_string()]);
    assert!(done.status.success());
    let said = String::from_utf8_lossy(&done.stdout);
    let expected = "case.bin: 1501 numbers, 1501 bytes; the program takes at most 1500 numbers";
    assert!(said.starts_with(expected), "{said}");
}

#[test]
fn other_words_get_the_usage() {
    for words in [
        &[][..],
        &["to-text"],
        &["to-text", "a", "b", "c"],
        &["explain", "x"],
    ] {
        let done = run(words);
        assert_eq!(done.status.code(), Some(2));
        assert!(String::from_utf8_lossy(&done.stderr).starts_with("usage: gasplan-text"));
    }
}

#[test]
fn help_is_an_answer() {
    for words in [&["-h"][..], &["--help"], &["to-bin", "--help"]] {
        let done = run(words);
        assert_eq!(done.status.code(), Some(0), "{words:?}");
        assert!(String::from_utf8_lossy(&done.stdout).starts_with("usage: gasplan-text"));
        assert!(done.stderr.is_empty());
    }
}

/// The status and the error of a command that cannot write.
fn writing_to(stdout: impl Into<Stdio>) -> (Option<i32>, String) {
    let mut command = Command::new(env!("CARGO_BIN_EXE_gasplan-text"));
    command.args(["to-text", "case", &example("day/case.bin")]);
    let done = command.stdout(stdout).stderr(Stdio::piped()).output();
    let done = done.expect("the command runs");
    let said = String::from_utf8_lossy(&done.stderr).into_owned();
    (done.status.code(), said)
}

#[test]
fn output_that_cannot_be_written_is_an_error() {
    let full = fs::File::options().write(true).open("/dev/full").unwrap();
    let (status, said) = writing_to(full);
    assert_eq!(status, Some(2), "{said}");
    assert!(said.starts_with("standard output: No space left"), "{said}");
    let (reader, writer) = io::pipe().unwrap();
    drop(reader);
    let (status, said) = writing_to(writer);
    assert_eq!(status, Some(2), "{said}");
    assert!(said.starts_with("standard output: Broken pipe"), "{said}");
}
