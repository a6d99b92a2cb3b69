//! Examples, and requests on them as they are typed.
#![allow(dead_code)]

mod pages;

use std::fs;
use std::path::{Path, PathBuf};

use explain::answer::{Answer, answer};
use explain::change::apply;
use explain::noes::{Noes, noes};
use explain::request::Request;
use explain::{Explanation, Input};
use gasplan::{Refusal, write_all};
pub use pages::{Shown, words};

pub const EXAMPLES: [&str; 8] = [
    "two-nodes",
    "line",
    "day",
    "incident",
    "empty-bound",
    "drift",
    "drift-idle",
    "crowd",
];

/// Those of them that are accepted.
pub const ACCEPTED: [&str; 4] = ["two-nodes", "line", "day", "drift-idle"];

pub fn root() -> PathBuf {
    Path::new(env!("CARGO_MANIFEST_DIR")).join("../..")
}

pub fn example(name: &str) -> Input {
    let bytes = |file| fs::read(root().join("examples").join(name).join(file)).unwrap();
    Input {
        case_bytes: bytes("case.bin"),
        plan_bytes: bytes("plan.bin"),
    }
}

/// The answer to a command on an example, as `two-nodes --ledger 0 0 1`.
pub fn ask(line: &str) -> Answer {
    let words = words(line);
    let request = Request::of(&words).expect(line);
    let mut input = example(words[0].trim_start_matches("examples/"));
    apply(&mut input, &request.changes).expect(line);
    answer(&input, &request)
}

/// Are these among the lines that are printed?
pub fn says(command: &str, lines: &[&str]) {
    let text = ask(command).text;
    for line in lines {
        let found = text.lines().any(|it| it == *line);
        assert!(found, "{command} does not say\n{line}\nbut\n{text}");
    }
}

pub fn accepts(command: &str) {
    let answer = ask(command);
    assert!(answer.accepted, "{command}: {}", answer.text);
}

/// The first line that is a refusal.
pub fn refusal_line(text: &str) -> Option<&str> {
    text.lines().find(|line| line.starts_with("refused"))
}

/// What the words ask of two lists, as `--all --margins`.
pub fn ask_lists(case: &[i64], plan: &[i64], options: &str) -> Answer {
    let words = words(&format!("folder {options}"));
    let request = Request::of(&words).expect(options);
    answer(&input_of(case, plan), &request)
}

pub fn input_of(case: &[i64], plan: &[i64]) -> Input {
    Input {
        case_bytes: write_all(case).unwrap(),
        plan_bytes: write_all(plan).unwrap(),
    }
}

/// Every "no" on two lists.
pub fn noes_of(case: &[i64], plan: &[i64]) -> Noes {
    noes(&input_of(case, plan), None)
}

pub fn refusals(rows: &[Explanation]) -> Vec<Refusal> {
    rows.iter().map(|row| row.refusal).collect()
}

pub fn refusal(number: i64, step: usize, place: usize) -> Refusal {
    Refusal {
        number,
        step,
        place,
    }
}

/// The second checker's answer on two lists.
pub fn second(case: &[i64], plan: &[i64]) -> Option<Refusal> {
    let answer = second::plan::judge(case, plan).err()?;
    Some(refusal(answer.number.into(), answer.step, answer.place))
}

/// The commands of a page that begin with `$ tools/bin/explain`.
pub fn shown(page: &str) -> Vec<Shown> {
    pages::shown(page, "explain")
}
