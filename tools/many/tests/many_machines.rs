//! The recipe of tools/README.md for many machines, run as it stands there where GNU parallel is installed. The machines are
//! shells of this one, reached by a stand-in for ssh.

mod common;

use std::env;
use std::fs::{self, Permissions};
use std::os::unix::fs::{PermissionsExt, symlink};
use std::path::Path;
use std::process::Command;

use common::{COMMAND, judge_many, outside, root, skipped, text};

/// Called as `ssh [-l USER] MACHINE -- COMMAND..`; notes the machine, and begins elsewhere, as a login does.
const SSH: &str = r#"#!/bin/sh
while [ "$1" != -- ]; do machine=$1 && shift; done
echo "$machine" >>"$REACHED"
[ "$machine" != down ] || exit 255
shift
cd / && exec sh -c "$*"
"#;

fn is_installed() -> bool {
    let asked = Command::new("parallel").arg("--version").output();
    let found = asked.is_ok_and(|done| done.stdout.starts_with(b"GNU parallel"));
    if !found {
        skipped("GNU parallel is not installed");
    }
    found
}

/// The lines of the page from the one that begins so to the next that is not set in.
fn recipe(begins: &str) -> String {
    let page = fs::read_to_string(root().join("tools/README.md")).expect("the page");
    let lines = page.lines().skip_while(|line| !line.starts_with(begins));
    let lines: Vec<&str> = lines.take_while(|line| line.starts_with("    ")).collect();
    assert!(
        !lines.is_empty(),
        "tools/README.md has no line with {begins}"
    );
    lines.join("\n")
}

/// A place with machines, folders, the command as it is installed, and the stand-in.
fn prepare(place: &Path, machines: &str, examples: &[&str], folders: usize) {
    fs::write(place.join("machines.txt"), machines).expect("machines");
    fs::write(place.join("ssh"), SSH).expect("a stand-in");
    fs::set_permissions(place.join("ssh"), Permissions::from_mode(0o755)).expect("a mode");
    symlink(COMMAND, place.join("gasplan-judge-many")).expect("a link");
    let example = |index: usize| examples[index * index / 3 % examples.len()];
    let name = |index| root().join("examples").join(example(index));
    let list: String = (0..folders)
        .map(|index| format!("{}\n", name(index).display()))
        .collect();
    fs::write(place.join("folders.txt"), list).expect("a list");
}

/// Runs the recipe there; gives how it ends, and the machines that it reached.
fn run(place: &Path) -> (Option<i32>, String) {
    let path = env::var_os("PATH").unwrap_or_default();
    let folders = [place.to_path_buf()].into_iter();
    let path = env::join_paths(folders.chain(env::split_paths(&path))).expect("a path");
    let mut shell = Command::new("bash");
    shell.arg("-c").arg(recipe("    parallel --sshloginfile"));
    shell
        .current_dir(place)
        .env("PATH", path)
        .env("HOME", place);
    shell.env("PARALLEL_SSH", place.join("ssh"));
    shell.env("REACHED", place.join("reached"));
    let done = shell.output().expect("a shell");
    let reached = fs::read_to_string(place.join("reached")).expect("machines");
    (done.status.code(), reached)
}

#[test]
fn the_recipe_for_many_machines() {
    if !is_installed() {
        return;
    }
    let place = outside("machines");
    let examples = ["two-nodes", "incident", "line", "crowd"];
    prepare(&place, "one\nplanner@two\n:\n", &examples, 2_300);
    let (status, reached) = run(&place);
    assert_eq!(status, Some(1), "the worst of all");
    assert!(
        reached.contains("one\n") && reached.contains("two\n"),
        "{reached}"
    );

    let list = place.join("folders.txt").display().to_string();
    let due = text(&judge_many(&["--json", "--from", &list]).stdout);
    let found = fs::read_to_string(place.join("verdicts.json")).expect("verdicts");
    assert_eq!(found.lines().count(), 2_300);
    assert!(found == due, "in the order of the list");
}

#[test]
fn a_machine_that_is_down() {
    if !is_installed() {
        return;
    }
    let place = outside("machine-down");
    prepare(&place, "down\none\n", &["two-nodes", "line"], 1_000);
    let (status, reached) = run(&place);
    assert_eq!(status, Some(2), "all others are accepted");
    assert!(
        reached.contains("down\n") && reached.contains("one\n"),
        "{reached}"
    );
    let found = fs::read_to_string(place.join("verdicts.json")).expect("verdicts");
    assert_eq!(found.lines().count(), 500 * reached.matches("one").count());
}

#[test]
fn all_are_accepted() {
    if !is_installed() {
        return;
    }
    let place = outside("machines-accept");
    prepare(&place, "one\n", &["two-nodes", "line"], 600);
    assert_eq!(run(&place), (Some(0), "one\none\n".to_string()));
}
