//! The picture: well formed, self-contained, with all items and the refused one marked.

mod common;

use common::{ACCEPTED, EXAMPLES, ask, example};
use explain::balance::{of_library, of_sums};
use gasplan::read_all;
use gasplan_text::model::{Case, Plan};

fn picture(command: &str) -> String {
    let answer = ask(&format!("{command} --svg picture.svg"));
    let picture = answer.picture.expect("a picture was asked for");
    well_formed(&picture);
    picture
}

/// Every tag is closed in turn, and texts hold no loose signs.
fn well_formed(picture: &str) {
    let mut open = Vec::new();
    let mut rest = picture;
    while let Some(start) = rest.find('<') {
        let text = &rest[..start];
        assert!(!text.contains('>'), "{text}");
        let end = start + rest[start..].find('>').expect("a tag ends");
        let tag = &rest[start + 1..end];
        assert_eq!(tag.matches('"').count() % 2, 0, "{tag}");
        let name = tag
            .trim_start_matches('/')
            .split([' ', '/'])
            .next()
            .unwrap_or("");
        if tag.starts_with('/') {
            assert_eq!(open.pop(), Some(name), "{tag}");
        } else if !tag.ends_with('/') {
            open.push(name);
        }
        rest = &rest[end + 1..];
    }
    assert!(open.is_empty() && rest.trim().is_empty());
    for part in picture.split('&').skip(1) {
        let known = ["amp;", "lt;", "gt;", "quot;"];
        assert!(known.iter().any(|it| part.starts_with(it)), "{part}");
    }
    assert!(!picture.contains("NaN") && !picture.contains("inf"));
}

#[test]
fn a_picture_needs_no_other_file() {
    for name in EXAMPLES {
        let picture = picture(name);
        assert!(picture.starts_with("<svg xmlns=\"http://www.w3.org/2000/svg\""));
        for outside in ["href", "url(", "<script", "<image", "@import", "<!"] {
            assert!(!picture.contains(outside), "{name}: {outside}");
        }
        assert!(picture.contains("This picture is not proved."));
    }
}

#[test]
fn all_items_are_drawn() {
    let picture = picture("day");
    let items = [("node", 12), ("arc", 15), ("station", 2)];
    for (kind, count) in items {
        for item in 0..count {
            let item = format!("data-item=\"{kind} {item}\"");
            assert_eq!(picture.matches(&item).count(), 1, "{item}");
        }
    }
    assert!(!picture.contains("class=\"marked\""));
    assert!(picture.contains("class=\"balance\""));
    assert!(picture.contains("by the library's ledger"));
}

#[test]
fn the_refused_item_is_marked() {
    let marked = [
        ("incident", "station 0"),
        ("empty-bound", "arc 0"),
        ("drift", "arc 0"),
        ("crowd", "station 0"),
        ("two-nodes --change plan 'step 1 arc 0 b' 901", "arc 0"),
        ("two-nodes --change plan 'step 1 node 1 p' 44999", "node 1"),
        ("line --change case 'arc 2 to' 0", "arc 2"),
        ("day --change case 'arc 3 station' 1", "node 2"),
        ("day --change plan 'step 9 arc 12 a' 5", "arc 12"),
    ];
    for (command, item) in marked {
        let picture = picture(command);
        let mark = format!("id=\"marked\" class=\"marked\" data-item=\"{item}\"");
        assert!(picture.contains(&mark), "{command}");
        assert_eq!(picture.matches("class=\"marked\"").count(), 1, "{command}");
    }
}

#[test]
fn a_file_that_is_no_case_has_words_alone() {
    let picture = picture("two-nodes --append case 80");
    assert!(picture.contains("refused 1 0 59"));
    assert!(!picture.contains("data-item"));
}

#[test]
fn the_same_case_gives_the_same_picture() {
    assert_eq!(
        picture("day --ledger 4,5,11 0 24"),
        picture("day --ledger 4,5,11 0 24")
    );
}

#[test]
fn sums_made_here_are_the_library_s() {
    for name in ACCEPTED {
        let input = example(name);
        let case_list = read_all(&input.case_bytes).unwrap();
        let plan_list = read_all(&input.plan_bytes).unwrap();
        let case = Case::of(&case_list).unwrap();
        let plan = Plan::new(&case, &plan_list);
        for mask in [!0, 0x5555, 0x3333, 0x0F0F, 0x00FF, 0x1248] {
            let set = mask & ((1 << case.nodes.len()) - 1);
            let vouched = of_library(&case_list, &plan_list, set, case.steps()).unwrap();
            assert_eq!(vouched.steps, of_sums(&plan, set).steps, "{name} {set}");
        }
    }
}
