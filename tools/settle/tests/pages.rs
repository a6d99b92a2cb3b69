//! docs/RULES.md and tools/README.md: what they show of settle is what it prints.

mod common;
#[path = "../../explain/tests/common/pages.rs"]
mod pages;

use std::collections::BTreeSet;
use std::fs;

use common::{root, run, text};
use explain::rules::RULES;
use pages::{Shown, shown, words};

fn on_page(page: &str) -> Vec<Shown> {
    let page = fs::read_to_string(root().join(page)).expect("the page is there");
    shown(&page, "settle")
}

/// What a command prints, and how it ends.
fn printed(command: &str) -> (String, Option<i32>) {
    let words = words(command);
    let words: Vec<&str> = words.iter().map(String::as_str).collect();
    let done = run(&words);
    (text(&done.stdout), done.status.code())
}

#[test]
fn every_number_from_60_on_has_an_input_that_gives_it() {
    let mut given = BTreeSet::new();
    for Shown {
        heading,
        command,
        lines,
    } in on_page("docs/RULES.md")
    {
        let (number, _) = heading.split_once(' ').expect("a heading with its number");
        let (text, status) = printed(&command);
        assert_eq!(status, Some(1), "{command}");
        assert!(lines[0].starts_with(&format!("refused {number} ")));
        let found: Vec<&str> = text.lines().take(lines.len()).collect();
        assert_eq!(found, lines, "{command}");
        given.insert(number.parse().unwrap());
    }
    let numbers = RULES.iter().map(|rule| rule.number);
    assert_eq!(given, numbers.filter(|&number| number >= 60).collect());
}

/// Each line is printed, in its order; dots stand for lines that are left out.
#[test]
fn the_tools_page_shows_what_is_printed() {
    let shown = on_page("tools/README.md");
    assert!(!shown.is_empty());
    for Shown { command, lines, .. } in shown {
        let (text, _) = printed(&command);
        let mut printed = text.lines();
        assert!(lines.len() > 2, "{command}");
        for line in lines.iter().filter(|line| *line != "...") {
            assert!(printed.any(|it| it == line), "{command}: {line}");
        }
    }
}
