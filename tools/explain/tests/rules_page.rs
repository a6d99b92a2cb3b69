//! docs/RULES.md: every number, each with an input that gives it.

mod common;

use std::collections::BTreeSet;
use std::fs;

use common::{Shown, ask, refusal_line, root, shown};
use explain::rules::RULES;

fn page() -> String {
    fs::read_to_string(root().join("docs/RULES.md")).expect("the page is there")
}

#[test]
fn every_number_has_its_heading() {
    let page = page();
    let headings: Vec<&str> = page
        .lines()
        .filter_map(|line| line.strip_prefix("### "))
        .collect();
    let wanted: Vec<String> = RULES
        .iter()
        .map(|rule| format!("{} {}", rule.number, rule.title))
        .collect();
    assert_eq!(headings, wanted);
}

/// The verdict's line is the first, or the first that is a refusal where a ledger is refused.
#[test]
fn every_input_gives_its_number_and_is_explained() {
    let mut given = BTreeSet::new();
    for Shown {
        heading,
        command,
        lines,
    } in shown(&page())
    {
        let Some((number, _)) = heading.split_once(' ') else {
            continue;
        };
        let answer = ask(&command);
        assert!(!answer.accepted);
        let text = &answer.text;
        assert_eq!(refusal_line(text), Some(lines[0].as_str()), "{command}");
        let printed = |line: &String| text.lines().any(|it| it == line);
        assert!(lines.iter().all(printed), "{command}:\n{text}");
        let said = lines
            .iter()
            .any(|it| it.contains(&format!("refused {number} ")));
        assert!(said, "{command} does not show {number}");
        assert!(text.contains(&format!("rule {number}, ")), "{text}");
        assert!(!text.contains("no part of the question"), "{text}");
        given.insert(number.parse().unwrap());
    }
    // 4 is the writer's: no file gives it. From 60 on they are of records, and settle's tests run what the page shows.
    let wanted = RULES
        .iter()
        .map(|rule| rule.number)
        .filter(|&number| number != 4 && number < 60);
    assert_eq!(given, wanted.collect());
}

/// The first command of the page is shown with all that it prints, up to there.
#[test]
fn the_page_shows_what_is_printed() {
    let shown = shown(&page());
    let first = shown.first().expect("the page begins with a command");
    assert_eq!(first.heading, "");
    let answer = ask(&first.command);
    let printed: Vec<&str> = answer.text.lines().take(first.lines.len()).collect();
    assert!(printed.len() > 2);
    assert_eq!(printed, first.lines);
}

/// Each line of the tools' page is printed, in its order; dots stand for lines that are left out.
#[test]
fn the_tools_page_shows_what_is_printed() {
    let page = fs::read_to_string(root().join("tools/README.md")).expect("the page is there");
    let shown = shown(&page);
    assert!(shown.len() >= 2);
    for Shown { command, lines, .. } in shown {
        let text = ask(&command).text;
        let mut printed = text.lines();
        for line in lines.iter().filter(|line| *line != "...") {
            assert!(printed.any(|it| it == line), "{command}: {line}");
        }
    }
}
