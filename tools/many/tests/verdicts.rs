//! Each line against the second checker, the program and `./judge`.

mod common;

use std::collections::BTreeMap;
use std::env;
use std::fs;
use std::path::{Path, PathBuf};
use std::process::{Command, Stdio};

use common::{
    Files, LIMITS, any_files, judge_many, outside, root, scratch, second_line, skipped, text,
    write_folders,
};

const HEADER: &str = "folder,verdict,number,step,place,pressure_slack,demand_slack,switching_cost,residual,gas_at_start,gas_at_end,note\n";

/// What is to be noted of these files.
fn note(files: &Files, limits: bool) -> String {
    let mut notes = Vec::new();
    for ((name, bytes), limit) in ["case.bin", "plan.bin"].iter().zip(files).zip(LIMITS) {
        match bytes {
            None => notes.push(format!("{name} is missing and counts as empty")),
            Some(bytes) if limits && bytes.len() > limit => {
                notes.push(format!("{name} has more than {limit} bytes"));
            }
            Some(_) => {}
        }
    }
    notes.join("; ")
}

/// The CSV line for a line of the program.
fn csv(name: &str, line: &str, note: &str) -> String {
    let numbers = match line.split_once(' ') {
        Some(("accepted", totals)) => format!("accepted,,,,{}", totals.replace(' ', ",")),
        Some(("refused", refusal)) => format!("refused,{},,,,,,", refusal.replace(' ', ",")),
        _ => format!("{line},,,,,,,,,"),
    };
    format!("{name},{numbers},{note}\n")
}

/// The JSON line for a line of the program.
fn json(name: &str, line: &str, note: &str) -> String {
    let totals = HEADER.split(',').skip(5).take(6);
    let (word, names): (&str, Vec<&str>) = match line.split_once(' ') {
        Some(("accepted", _)) => ("accepted", totals.collect()),
        Some(("refused", _)) => ("refused", vec!["number", "step", "place"]),
        _ => (line, Vec::new()),
    };
    let numbers = line.split(' ').skip(1);
    let pairs = names.iter().zip(numbers);
    let numbers: String = pairs
        .map(|(name, number)| format!(",\"{name}\":{number}"))
        .collect();
    let note = match note {
        "" => String::new(),
        _ => format!(",\"note\":\"{note}\""),
    };
    format!("{{\"folder\":\"{name}\",\"verdict\":\"{word}\"{numbers}{note}}}\n")
}

/// The lines that are due, in both forms.
fn due(names: &[String], all: &[Files], limits: bool) -> [String; 2] {
    let mut due = [HEADER.to_string(), String::new()];
    for (name, files) in names.iter().zip(all) {
        let (line, note) = (second_line(files, limits), note(files, limits));
        due[0].push_str(&csv(name, &line, &note));
        due[1].push_str(&json(name, &line, &note));
    }
    due
}

fn assert_same(found: &[u8], due: &str) {
    let found = text(found);
    for (found, due) in found.lines().zip(due.lines()) {
        assert_eq!(found, due);
    }
    assert!(found == due, "as many lines");
}

/// How many lines there are of each verdict: a refusal by its number, any other by its first word.
fn tally(lines: &[String]) -> BTreeMap<String, usize> {
    let mut tally = BTreeMap::new();
    for line in lines {
        let words = 1 + usize::from(line.starts_with("refused"));
        let start: Vec<&str> = line.split(' ').take(words).collect();
        *tally.entry(start.join(" ")).or_insert(0) += 1;
    }
    tally
}

#[test]
fn each_line_is_the_second_checker_s() {
    let all: Vec<Files> = (0..4_000).map(any_files).collect();
    let (list, names) = write_folders("second", &all);
    let list = list.display().to_string();
    let lines = |limits| all.iter().map(move |it| second_line(it, limits));
    let counts = tally(&lines(true).collect::<Vec<_>>());
    assert!(counts["accepted"] >= 500 && counts["too"] >= 100);
    let refusals = counts.keys().filter(|key| key.starts_with("refused"));
    assert_eq!(refusals.count(), 28, "every number there is");
    let past = lines(true).zip(lines(false));
    let past = past.filter(|(one, other)| one == "too long" && other.starts_with("accepted"));
    assert!(past.count() >= 20, "accepted past the limits");
    for limits in [true, false] {
        let [csv, json] = due(&names, &all, limits);
        let library: &[&str] = if limits { &[] } else { &["--library"] };
        let done = judge_many(&[&["--from", &list][..], library].concat());
        assert_same(&done.stdout, &csv);
        assert_eq!(done.status.code(), Some(if limits { 2 } else { 1 }));
        let done = judge_many(&[&["--json", "--jobs", "3", "--from", &list][..], library].concat());
        assert_same(&done.stdout, &json);
        assert!(done.stderr.is_empty());
    }
}

/// The proved program, where it has been built.
fn program() -> Option<PathBuf> {
    let program = root().join("target/bin/checker");
    if program.is_file() {
        return Some(program);
    }
    let due = env::var_os("GASPLAN_PROGRAM_DUE").is_some();
    assert!(!due, "{} is missing", program.display());
    skipped(&format!("{} is not built", program.display()));
    None
}

#[test]
fn each_line_is_the_program_s() {
    let Some(program) = program() else { return };
    let all: Vec<Files> = (10_000..10_600).map(any_files).collect();
    let (list, names) = write_folders("program", &all);
    let mut due = HEADER.to_string();
    for (name, files) in names.iter().zip(&all) {
        let run = Command::new(&program).current_dir(name).output();
        let line = text(&run.expect("the program runs").stdout);
        due.push_str(&csv(name, line.trim_end(), &note(files, true)));
    }
    let list = list.display().to_string();
    assert_same(&judge_many(&["--from", &list]).stdout, &due);
}

/// `./judge` as it is installed, which needs no kit.
fn install_judge(place: &Path, program: &Path) -> PathBuf {
    let judge = place.join("bin/gasplan-judge");
    for folder in ["bin", "libexec/gasplan"] {
        fs::create_dir_all(place.join(folder)).expect("a folder");
    }
    fs::copy(root().join("judge"), &judge).expect("judge");
    fs::copy(program, place.join("libexec/gasplan/checker")).expect("the program");
    judge
}

/// Folders that are none, or whose files are none.
fn broken(place: &Path) -> Vec<String> {
    let make = |name: &str| {
        let folder = place.join(name);
        fs::create_dir(&folder).expect("a folder");
        folder
    };
    fs::create_dir(make("case is a folder").join("case.bin")).expect("a folder");
    let link = make("plan leads nowhere").join("plan.bin");
    std::os::unix::fs::symlink("nowhere", link).expect("a link");
    let long = make("long case, plan is a folder");
    fs::write(long.join("case.bin"), vec![0; LIMITS[0] + 1]).expect("a file");
    fs::create_dir(long.join("plan.bin")).expect("a folder");
    let pipe = make("plan is a pipe").join("plan.bin");
    let made = Command::new("mkfifo").arg(pipe).status();
    assert!(made.expect("mkfifo runs").success());
    make("nothing in it");
    fs::write(place.join("a file"), "").expect("a file");
    let link = place.join("linked");
    std::os::unix::fs::symlink(root().join("examples/line"), link).expect("a link");
    let names = [
        "case is a folder",
        "plan leads nowhere",
        "long case, plan is a folder",
        "plan is a pipe",
        "nothing in it",
        "linked",
        "a file",
        "absent",
    ];
    let path = |name: &&str| place.join(name).display().to_string();
    names.iter().map(path).chain([String::new()]).collect()
}

#[test]
fn each_line_and_status_is_that_of_judge() {
    let Some(program) = program() else { return };
    let judge = install_judge(&scratch("judge-installed"), &program);
    let all: Vec<Files> = (20_000..20_040).map(any_files).collect();
    let (_, mut names) = write_folders("judge", &all);
    let links = outside("broken");
    names.extend(broken(&links));
    let mut open = 0;
    for name in &names {
        let run = Command::new(&judge).arg(name).stdin(Stdio::null()).output();
        let run = run.expect("judge runs");
        let line = match text(&run.stdout).trim_end() {
            "" => "no verdict".to_string(),
            line => line.to_string(),
        };
        open += usize::from(line == "no verdict");
        let done = judge_many(&["--", name]);
        let found = text(&done.stdout);
        let found = found.strip_prefix(HEADER).expect("the header");
        let shown = csv(&quoted(name), &line, "");
        let shown = shown.trim_end();
        assert!(found.starts_with(shown), "{found} for {line}");
        assert_eq!(done.status.code(), run.status.code(), "{name}");
    }
    assert_eq!(open, 7);
}

/// A name with a comma is quoted.
fn quoted(name: &str) -> String {
    match name.contains(',') {
        true => format!("\"{name}\""),
        false => name.to_string(),
    }
}
