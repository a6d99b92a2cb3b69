//! The command itself: its words, its streams and how it ends.

mod common;

use std::fs::{self, File, Permissions};
use std::io::{Read, Write};
use std::os::unix::fs::{MetadataExt, PermissionsExt};
use std::os::unix::process::CommandExt;
use std::path::Path;
use std::process::{Command, Output, Stdio};

use common::{COMMAND, judge_many, root, scratch, skipped, text};

const TWO_NODES: &str = "accepted,,,,0,0,0,0,599988,611988,";

/// What it says where it ends with 2 and prints nothing.
fn said(done: &Output) -> String {
    assert_eq!(done.status.code(), Some(2), "{done:?}");
    let said = text(&done.stderr);
    assert!(
        said.starts_with("judge-many: ") && said.lines().count() == 1,
        "{said}"
    );
    said
}

/// Runs it on what is written to its standard input.
fn with_input(words: &[&str], input: &str, stdout: Stdio) -> Output {
    let mut command = Command::new(COMMAND);
    command.args(words).current_dir(root());
    let piped = command.stdin(Stdio::piped()).stderr(Stdio::piped());
    let mut child = piped.stdout(stdout).spawn().expect("the command runs");
    let mut pipe = child.stdin.take().expect("its input");
    pipe.write_all(input.as_bytes()).expect("it reads");
    drop(pipe);
    child.wait_with_output().expect("it ends")
}

#[test]
fn the_status_is_that_of_the_worst() {
    let folders = ["examples/two-nodes", "examples/incident", "nowhere"];
    for (count, status) in [(1, 0), (2, 1), (3, 2)] {
        let done = judge_many(&folders[..count]);
        assert_eq!(done.status.code(), Some(status));
        assert_eq!(text(&done.stdout).lines().count(), 1 + count);
        assert!(done.stderr.is_empty());
    }
    let done = judge_many(&["nowhere", "examples/two-nodes"]);
    assert_eq!(done.status.code(), Some(2));
}

#[test]
fn help_is_given() {
    for word in ["-h", "--help"] {
        let done = judge_many(&["examples/line", word]);
        assert_eq!(done.status.code(), Some(0));
        assert!(text(&done.stdout).starts_with("usage: judge-many"));
        assert!(done.stderr.is_empty());
    }
    let full = File::options().write(true).open("/dev/full").unwrap();
    let done = with_input(&["--help"], "", full.into());
    assert!(said(&done).contains("cannot be written"));
}

#[test]
fn wrong_words_end_with_2() {
    for words in [&[][..], &["--xml", "a"], &["--jobs"], &["-", "-"]] {
        let done = judge_many(words);
        assert!(said(&done).contains("judge-many --help"), "{words:?}");
        assert!(done.stdout.is_empty());
    }
}

#[test]
fn lists_of_names_that_are_of_no_use() {
    let done = judge_many(&["examples/line", "--from", "nowhere.txt"]);
    assert!(said(&done).contains("nowhere.txt"));
    assert!(done.stdout.is_empty());
    let done = with_input(&["-"], "", Stdio::piped());
    assert!(said(&done).contains("no folder is named"));
    assert!(done.stdout.is_empty());
}

#[test]
fn ten_thousand_folders_in_one_call() {
    let some = ["examples/two-nodes", "examples/incident", "examples/line"];
    let names: Vec<&str> = (0..10_000).map(|index| some[index * index % 3]).collect();
    let done = with_input(&["-"], &names.join("\n"), Stdio::piped());
    assert_eq!(done.status.code(), Some(1));
    let found = text(&done.stdout);
    let each = some.map(|name| text(&judge_many(&[name]).stdout));
    assert!(
        each[0].ends_with(&format!("examples/two-nodes,{TWO_NODES}\n")),
        "{each:?}"
    );
    let mut due = found.lines().next().expect("a header").to_string() + "\n";
    for name in names {
        let of = some.iter().position(|it| *it == name).unwrap();
        due.push_str(each[of].lines().nth(1).expect("a line"));
        due.push('\n');
    }
    assert!(found == due);
}

/// An empty line of a list is not the folder that the command runs in.
#[test]
fn an_empty_name_is_no_folder() {
    let mut command = Command::new(COMMAND);
    command.current_dir(root().join("examples/line"));
    let done = command.args(["--json", "", "."]).output();
    let done = done.expect("the command runs");
    assert_eq!(done.status.code(), Some(2));
    let found = text(&done.stdout);
    let due = r#"{"folder":"","verdict":"no verdict","note":"no such folder: an empty name"}"#;
    assert_eq!(found.lines().next(), Some(due));
    let named = r#"{"folder":".","verdict":"accepted","#;
    assert!(
        found.lines().nth(1).is_some_and(|it| it.starts_with(named)),
        "{found}"
    );
}

#[test]
fn a_full_disk_is_told() {
    let full = || Stdio::from(File::options().write(true).open("/dev/full").unwrap());
    for words in [&["--json", "-"], &["--csv", "-"]] {
        let done = with_input(words, "examples/line\n", full());
        assert!(said(&done).contains("No space left on device"));
    }
}

#[test]
fn a_closed_pipe_is_told() {
    let (reader, writer) = std::io::pipe().expect("a pipe");
    drop(reader);
    let names = "examples/line\n".repeat(1_000);
    let done = with_input(&["--json", "-"], &names, writer.into());
    assert!(said(&done).contains("Broken pipe"));
}

#[test]
fn a_reader_that_goes_early_is_told() {
    let (mut reader, writer) = std::io::pipe().expect("a pipe");
    let gone = std::thread::spawn(move || {
        let mut first = [0; 6];
        reader.read_exact(&mut first).map(|()| first)
    });
    let names = "examples/line\n".repeat(10_000);
    let done = with_input(&["-"], &names, writer.into());
    assert_eq!(
        &gone.join().expect("a reader").expect("a header"),
        b"folder"
    );
    assert!(said(&done).contains("Broken pipe"));
}

#[test]
fn closed_streams_are_told() {
    let run = |closed: &str| {
        let words = format!("exec '{COMMAND}' examples/two-nodes {closed}");
        let mut shell = Command::new("sh");
        shell.args(["-c", &words]).current_dir(root());
        shell.output().expect("a shell")
    };
    assert!(said(&run(">&-")).contains("it is closed"));
    assert!(said(&run("1</dev/null")).contains("cannot be written"));
    assert_eq!(run(">&- 2>&-").status.code(), Some(2));
    assert_eq!(run(">/dev/null").status.code(), Some(0));
    let done = run("2>&- <&-");
    assert_eq!(done.status.code(), Some(0));
    assert!(text(&done.stdout).contains(TWO_NODES));
}

/// A file that its reader may not read, with the command run by somebody who is not root.
#[test]
fn an_unreadable_file_leaves_no_verdict() {
    let place = std::env::temp_dir().join(format!("judge-many-{}", std::process::id()));
    fs::create_dir(&place).expect("a folder");
    let mode = |path: &Path, mode| fs::set_permissions(path, Permissions::from_mode(mode)).unwrap();
    mode(&place, 0o755);
    let command = place.join("judge-many");
    fs::copy(COMMAND, &command).expect("the command");
    for name in ["case.bin", "plan.bin"] {
        fs::copy(root().join("examples/line").join(name), place.join(name)).expect("a file");
    }
    mode(&place.join("plan.bin"), 0o000);
    let mut run = Command::new(&command);
    if fs::metadata(&place).unwrap().uid() == 0 {
        run.uid(65_534).gid(65_534);
    }
    let done = run.arg(&place).output().expect("the command runs");
    fs::remove_dir_all(&place).expect("it goes");
    assert_eq!(done.status.code(), Some(2));
    let expected =
        ",no verdict,,,,,,,,,,plan.bin cannot be read: Permission denied (os error 13)\n";
    assert!(text(&done.stdout).ends_with(expected), "{done:?}");
}

/// Runs a command line of the shell on a terminal; gives what the terminal shows.
fn on_terminal(line: &str) -> Option<String> {
    let mut script = Command::new("script");
    script.args(["-qec", line, "/dev/null"]).current_dir(root());
    match script.stdin(Stdio::null()).output() {
        Ok(done) => {
            assert_eq!(done.status.code(), Some(1), "{done:?}");
            Some(text(&done.stdout))
        }
        Err(error) => {
            skipped(&format!("script, which makes a terminal: {error}"));
            None
        }
    }
}

#[test]
fn a_terminal_gets_a_bar() {
    let lines = scratch("terminal").join("lines.csv");
    let words = format!("'{COMMAND}' examples/two-nodes examples/incident");
    let bar = "[####################] 2 of 2, 1 not accepted";
    if let Some(shown) = on_terminal(&format!("{words} >'{}'", lines.display())) {
        assert!(
            shown.starts_with("\r[") && shown.ends_with(&format!("\r{bar}\r\n")),
            "{shown}"
        );
        let plain = judge_many(&["examples/two-nodes", "examples/incident"]);
        assert_eq!(fs::read(&lines).expect("the lines"), plain.stdout);
    }
    // Where lines and bar share the terminal, each line stands alone.
    if let Some(shown) = on_terminal(&words) {
        let parts = shown.split(['\r', '\n']).filter(|it| !it.trim().is_empty());
        let (bars, lines): (Vec<&str>, Vec<&str>) = parts.partition(|it| it.starts_with('['));
        let plain = text(&judge_many(&["examples/two-nodes", "examples/incident"]).stdout);
        assert_eq!(lines, plain.lines().collect::<Vec<_>>());
        assert_eq!(bars.last(), Some(&bar), "{shown}");
    }
    if let Some(shown) = on_terminal(&format!("{words} 2>/dev/null")) {
        assert!(!shown.contains('#'), "{shown}");
    }
}
