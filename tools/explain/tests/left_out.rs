//! What `--all` does not ask, and what it says of that.

mod common;

use common::{ask, noes_of, refusal, refusals};
use gasplan::read_all;

/// The rows of the list as `28 1 0`, and what is said to be left out.
fn listed(command: &str) -> (Vec<String>, Vec<String>) {
    let text = ask(&format!("{command} --all")).text;
    let (mut rows, mut left_out, mut within) = (Vec::new(), Vec::new(), false);
    for line in text.lines() {
        let row = ["  verdict  ", "  also     "]
            .iter()
            .find_map(|label| line.strip_prefix(label));
        if let Some(row) = row {
            let words: Vec<&str> = row.split(' ').take(3).collect();
            rows.push(words.join(" "));
        }
        within |= line.starts_with("Not asked, ");
        if let (true, Some(what)) = (within, line.strip_prefix("  ")) {
            left_out.push(what.to_string());
        }
    }
    (rows, left_out)
}

fn gives(command: &str, rows: &[&str], left_out: &[&str]) {
    let (is_rows, is_left_out) = listed(command);
    assert_eq!(is_rows, rows, "{command}");
    assert_eq!(is_left_out, left_out, "{command}");
}

const FIELDS: &str =
    "13 to 17 and 20 to 33: they are about rows whose fields are there and in their ranges";

#[test]
fn bytes_that_cannot_be_read() {
    let case = "10 to 17 and 20 to 33: the case's numbers cannot be read";
    let plan = "20 to 33: the plan's numbers cannot be read";
    gives("two-nodes --append case 80", &["1 0 59"], &[case]);
    gives("two-nodes --append plan '80 00'", &["6 0 27"], &[plan]);
    let both = "two-nodes --append case 80 --append plan '80 00'";
    gives(both, &["1 0 59", "6 0 27"], &[case, plan]);
}

#[test]
fn fields_are_asked_up_to_one_that_says_what_follows() {
    gives(
        "line --change case 'node 0 acthigh' 5 --change case 'arc 2 qmax' -1 --change case 'arc 3 qmax' -1",
        &["11 0 18", "11 0 110", "11 0 121"],
        &[FIELDS],
    );
    gives(
        "line --change case 'node 0 acthigh' 5 --change case 'arc 2 qmax' -1 --change case 'arc 2 kind' 9",
        &["11 0 18", "11 0 107"],
        &[
            "10 to 12 of the numbers after number 107: kind of arc 2 = 9 says which fields follow",
            FIELDS,
        ],
    );
    gives(
        "line --change case steps 49",
        &["11 0 4"],
        &[
            "10 to 12 of the numbers after number 4: steps = 49 says which fields follow",
            FIELDS,
        ],
    );
    gives(
        "line --change case 'node 2 kind' 7 --change case 'node 2 demand 3' 7",
        &["11 0 37"],
        &[
            "11 of the demands of node 2: their range goes by its kind, 7",
            FIELDS,
        ],
    );
    gives("two-nodes --append case 00", &["12 0 33"], &[FIELDS]);
    gives("two-nodes --change case arcs 2", &["10 0 33"], &[FIELDS]);
}

#[test]
fn a_refused_case_still_has_its_plan_asked() {
    gives(
        "line --change case 'arc 1 active-at-0' 1 --change plan 'step 3 node 4 d' -45900",
        &["17 0 0", "22 3 4", "33 3 4"],
        &[],
    );
}

#[test]
fn a_plan_without_its_head_has_no_rows() {
    let rows = "21 to 33: without head and length it is not clear which row stands where";
    gives("line --change plan steps 7", &["20 0 0"], &[rows]);
    gives("line --append plan 00", &["20 0 0"], &[rows]);
}

#[test]
fn settings_sets_and_choices_that_are_not_there() {
    gives(
        "day --change plan 'step 3 arc 12 setting' 9",
        &["24 3 12"],
        &["25 to 27 of combined 12 (node 6 to 7, station 1), step 3: its setting 9 is unknown"],
    );
    gives(
        "day --change plan 'step 8 arc 2 machines' -3",
        &["24 8 2"],
        &[
            "26 on what its machines reach, and 27, of compressor 2 (node 2 to 3, station 0), step 8: its machines -3 are no set",
        ],
    );
    gives(
        "day --change plan 'step 7 station 0 direction' 4",
        &["30 7 0"],
        &["the rest of 30, and 32, of station 0, step 7: it has no direction 4"],
    );
    gives(
        "day --change plan 'step 7 station 0 state' -1",
        &["30 7 0"],
        &["the rest of 30 of station 0, step 7: it has no state -1"],
    );
}

#[test]
fn a_ledger_s_questions_come_last() {
    gives("two-nodes --ledger 0,2,5 3 2", &["40 0 2", "41 0 0"], &[]);
    gives("two-nodes --ledger 0 -1 2", &["41 0 0"], &[]);
    let text = ask("two-nodes --ledger 0 -1 2 --all").text;
    assert!(
        text.contains("           s = -1, below 0 by 1 step\n"),
        "{text}"
    );
    assert!(
        text.contains("           t = 2, over the last step k = 1 by 1 step\n"),
        "{text}"
    );
}

#[test]
fn the_verdict_alone_is_called_that() {
    let text = ask("two-nodes --all --change plan 'step 1 arc 0 b' 901").text;
    assert_eq!(text.matches("\n  verdict  ").count(), 1);
    assert_eq!(text.matches("\n  also     ").count(), 2);
    assert!(text.contains("Only the first is the proved verdict."));
    assert!(text.contains("they are not proved"));
    let alone = ask("incident --all").text;
    assert!(
        alone.contains(": 1 (31: 1). It is the proved verdict."),
        "{alone}"
    );
}

/// If explain's own evaluation went wrong, the list would say so.
#[test]
fn a_list_that_does_not_begin_with_the_verdict_is_marked() {
    let input = common::example("incident");
    let lists = [&input.case_bytes, &input.plan_bytes].map(|bytes| read_all(bytes).unwrap());
    let found = noes_of(&lists[0], &lists[1]);
    assert_eq!(refusals(&found.rows), [refusal(31, 2, 0)]);
    for verdict in [None, Some(refusal(30, 2, 0))] {
        let text = explain::listing::noes(&found, verdict);
        assert!(
            text.contains("DO NOT BEGIN WITH THE PROVED VERDICT"),
            "{text}"
        );
        assert!(!text.contains("  verdict  "), "{text}");
    }
}
