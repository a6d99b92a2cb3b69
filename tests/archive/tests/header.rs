//! The header, and what else declares or numbers the same things.

use std::collections::BTreeSet;
use std::fs;

use archive::header::Header;
use archive::signatures::{Signatures, of_rattle, of_rust};
use archive::{root, source};
use inputs::Rng;
use inputs::generate::{Size, of_size};

/// All of the Rattle sources that export.
fn exporting() -> String {
    let folder = fs::read_dir(root().join("crates/gasplan/src")).expect("the crate");
    let paths = folder.map(|entry| entry.expect("a file").path());
    paths
        .map(|path| fs::read_to_string(path).expect("text"))
        .collect()
}

/// Without the names of parameters.
fn types(signatures: &Signatures) -> Vec<(&str, Vec<&str>)> {
    signatures
        .iter()
        .map(|(name, parameters)| {
            let kinds = parameters.iter().map(|(_, kind)| kind.as_str());
            (name.as_str(), kinds.collect())
        })
        .collect()
}

#[test]
fn header_crate_and_rattle_declare_the_same_functions() {
    let header = Header::read().functions();
    assert!(header.len() >= 7, "{header:?}");
    assert_eq!(header, of_rust(&source("bindings/gasplan/src/calls.rs")));
    assert_eq!(types(&header), types(&of_rattle(&exporting())));
}

#[test]
fn one_version_everywhere() {
    let header = Header::read();
    let [major, minor, patch] =
        ["MAJOR", "MINOR", "PATCH"].map(|part| header.number(&format!("GASPLAN_VERSION_{part}")));
    let version = format!("{major}.{minor}.{patch}");
    assert_eq!(header.text("GASPLAN_VERSION"), format!("\"{version}\""));
    assert_eq!(gasplan::VERSION, version);
}

#[test]
fn header_and_crate_have_the_same_sizes() {
    let header = Header::read();
    assert_eq!(header.number("GASPLAN_OUT"), gasplan::OUT_PLACES);
    let no_room = format!("({})", gasplan::NO_ROOM);
    assert_eq!(header.text("GASPLAN_NO_ROOM"), no_room);
    assert_eq!(header.number("GASPLAN_NUMBER_BYTES"), gasplan::NUMBER_BYTES);
    assert_eq!(header.number("GASPLAN_RECORD_MOST"), gasplan::RECORD_MOST);
    let grams = header.number("GASPLAN_GRAMS_MOST");
    assert_eq!(grams as i64, gasplan::GRAMS_MOST);
}

/// Neither a row more nor a gram.
#[test]
fn a_record_has_at_most_so_many_rows_and_grams() {
    let header = Header::read();
    let most = header.number("GASPLAN_RECORD_MOST");
    let grams = header.number("GASPLAN_GRAMS_MOST") as i64;
    let record = |rows: usize, grams: i64| -> Vec<i64> {
        (0..rows as i64).flat_map(|time| [time, grams]).collect()
    };
    let number = |record: &[i64], agreed: i64| {
        let answer = gasplan::settle(record, record, agreed);
        answer.err().map(|refusal| refusal.number)
    };
    assert_eq!(number(&record(most, grams), grams), None);
    assert_eq!(number(&record(most + 1, grams), grams), Some(60));
    assert_eq!(number(&record(most, grams + 1), grams), Some(62));
    assert_eq!(number(&record(most, grams), grams + 1), Some(60));
}

/// Document 01's limits: 60 nodes, 120 arcs, 8 stations with 8 directions, 16 states and 12 machines, 48 steps.
#[test]
fn no_accepted_list_is_longer() {
    let header = Header::read();
    let station = 5 + 8 * 3 + 16 * 4 + 12 * 2;
    let case_most = 7 + 48 + 60 * (6 + 48) + 120 * 11 + 8 * station;
    assert_eq!(header.number("GASPLAN_CASE_MOST"), case_most);
    let plan_most = 2 + 48 * (60 * 6 + 120 * 4 + 8 * 2);
    assert_eq!(header.number("GASPLAN_PLAN_MOST"), plan_most);

    let pair = of_size(&mut Rng::new(1), Size::LARGEST);
    let (case, plan) = (pair.case.list(), pair.plan.list());
    assert!(gasplan::judge(&case, &plan).is_ok());
    assert!(case.len() <= case_most);
    assert_eq!(plan.len(), plan_most);
    let edition = header.number("GASPLAN_EDITION") as i64;
    assert_eq!((case[0], plan[0]), (edition, edition));
}

#[test]
fn every_refusal_has_a_name_and_its_question() {
    let header = Header::read();
    let refusals = header.refusals();
    let page = source("docs/RULES.md");
    let headings = page.lines().filter_map(|line| line.strip_prefix("### "));
    let on_page: Vec<u64> = headings
        .map(|heading| heading.split(' ').next().and_then(|it| it.parse().ok()))
        .map(|number| number.expect("a heading begins with its number"))
        .collect();
    let numbers: Vec<u64> = refusals.iter().map(|&(_, number, _)| number).collect();
    assert_eq!(numbers, on_page);
    let names: BTreeSet<&str> = refusals.iter().map(|&(name, _, _)| name).collect();
    assert_eq!(names.len(), refusals.len());
    for (name, _, question) in refusals {
        assert!(question.ends_with('?'), "{name}: {question}");
    }
}
