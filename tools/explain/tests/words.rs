//! What is said of a verdict: the item, the step, and both sides of the comparison.

mod common;

use std::fs;

use common::{ACCEPTED, EXAMPLES, ask, example, root};
use explain::explain_refusal;
use explain::questions::checks_of_item;
use explain::report::NOT_PROVED;
use gasplan::program::verdict;
use gasplan::{judge, read_all, write_all};
use gasplan_text::model::{Case, Plan};

/// Is this one of the lines that are printed?
fn says(command: &str, line: &str) {
    let text = ask(command).text;
    let found = text.lines().any(|it| it == line);
    assert!(found, "{command} does not say\n{line}\nbut\n{text}");
}

#[test]
fn examples_are_judged_as_they_say() {
    for name in EXAMPLES {
        let path = root().join("examples").join(name).join("expected.txt");
        let expected = fs::read_to_string(path).unwrap();
        let input = example(name);
        let said = verdict(&input.case_bytes, &input.plan_bytes).to_string();
        assert_eq!(format!("{said}\n"), expected, "{name}");
        let text = ask(name).text;
        assert_eq!(text.lines().next(), Some(said.as_str()));
        assert!(text.ends_with(&format!("{NOT_PROVED}\n")));
    }
}

#[test]
fn numbers_of_the_failed_question_are_shown() {
    says(
        "two-nodes --change plan 'step 1 arc 0 b' 901",
        "pipe 0 (node 0 to 1), step 1, 0 s to 60 s: 60 × (1100 - 901) - 6 × 2000 = -60, its size 60, over the mass tolerance 0 by 60 g",
    );
    says(
        "two-nodes --change case 'arc 0 f' 2000",
        "pipe 0 (node 0 to 1), step 1, 0 s to 60 s: 1000000 × (50998 - 51000) + 2000 × 1100 + 1000 × 900 + 0 × (51000 + 50998) \
         = 1100000, over 1000000 × the pressure tolerance 0 = 0 by 1.1 mbar",
    );
    says(
        "two-nodes --change plan 'step 1 node 0 d' 1000",
        "node 0 (source), step 1, 0 s to 60 s: d + s+ - s- = 1000 + 0 - 0 = 1000, not the demand 1100: off by 100 g/s",
    );
    says(
        "day --change plan 'step 18 node 5 s-' 1501",
        "node 5 (sink), step 18, 61200 s to 64800 s: d + s+ - s- = -94500 + 0 - 1501 = -96001, not the demand -96000: off by 1 g/s",
    );
    says(
        "two-nodes --change plan 'step 1 node 1 p' 44999",
        "node 1 (sink), step 1, 0 s to 60 s: p + u+ = 44999 + 0 = 44999, below actlow 45000 by 1 mbar (the demand is -900)",
    );
    says(
        "two-nodes --change plan 'step 1 node 0 d' 1000 --change plan 'step 1 node 0 s+' 100",
        "node 0 (source), step 1, 0 s to 60 s: 60 × |flow out 1100 - flow in 0 - d 1000| = 6000, over the mass tolerance 0 by 6,000 g",
    );
    says(
        "two-nodes --change case 'node 1 actlow' 30000",
        "case, number 19: actlow of node 1 = 30000, below 40000 by 10,000 mbar (range 40000 to 200000)",
    );
}

#[test]
fn stations_and_machines_are_named() {
    says(
        "incident",
        "station 0 (nodes 2 to 4; arcs 2, 3), step 2, 3600 s to 7200 s: machine 1 is on compressor 2 (node 2 to 4, station 0) \
         and on compressor 3 (node 3 to 4, station 0): 2 arcs, over 1",
    );
    says(
        "line --change case 'station 0 machine 1 ratio' 1001",
        "compressor 0 (node 2 to 3, station 0), step 1, 0 s to 3600 s: p at the out end, node 3, = 50781, over the 46839 that \
         its machines reach by 3,942 mbar",
    );
    says(
        "drift-idle --change plan 'step 9 arc 0 a' 18000",
        "compressor 0 (node 1 to 2, station 0), step 9, 28800 s to 32400 s: flow 18000, over the 0 that its machines take by 18,000 g/s",
    );
    says(
        "line --change plan 'step 1 station 0 direction' 1",
        "station 0 (nodes 2, 3; arcs 0, 1), step 1, 0 s to 3600 s: net flow from node 2 into the station: 34000 - 0 = 34000, \
         over 0 by 34,000 g/s (it is an exit of direction 1)",
    );
}

#[test]
fn bytes_are_shown_in_hexadecimal() {
    says(
        "two-nodes --append plan '82 80 00'",
        "plan.bin, byte 28: number 18 (past the last field), from byte 26 on, is 82 80 [00]: \
         its last byte is 00, which a number does not need",
    );
    says(
        "two-nodes --append case 'FF*9 02'",
        "case.bin, byte 67: number 33 (past the last field), from byte 58 on, is FF FF FF FF FF FF FF FF FF [02]: \
         its tenth byte is 02, and only 01 may stand there",
    );
}

#[test]
fn totals_have_units_and_a_ledger_its_balance() {
    let command = "two-nodes --change case mass-tolerance 60 --change case pressure-tolerance 1 \
                   --change plan 'step 1 arc 0 b' 901 --ledger 1 0 1";
    says(command, "accepted 0 0 0 120 599988 611988");
    says(
        command,
        "  residual                       120 g, over all pipes, nodes and steps",
    );
    says(
        command,
        "ledger of the nodes {1}, step 0 to step 1 (0 s to 60 s)",
    );
    says(command, "  brought in                      60 g");
    says(
        command,
        "  balance: gas at step 1 - gas at step 0 - brought in = -60 g;",
    );
    says(
        command,
        "           1 step × 1 node or inner pipe × the mass tolerance 60 g = 60 g",
    );
}

#[test]
fn a_refused_plan_has_no_ledger() {
    says(
        "incident --ledger all 0 1",
        "No ledger: it is drawn up of an accepted plan.",
    );
    assert!(!ask("incident").text.contains("ledger: "));
}

/// How many items the question with this number is asked of.
fn asked_of(case: &Case, number: i64) -> usize {
    match number {
        13 | 24..=29 => case.arcs.len(),
        14 | 21..=23 | 33 => case.nodes.len(),
        _ => case.stations.len(),
    }
}

#[test]
fn an_accepted_plan_fails_no_part_of_any_question() {
    for name in ACCEPTED {
        let input = example(name);
        let case = Case::of(&read_all(&input.case_bytes).unwrap()).unwrap();
        let plan_list = read_all(&input.plan_bytes).unwrap();
        let plan = Plan::new(&case, &plan_list);
        for number in (13..=17).chain(21..=33) {
            let steps = if number < 20 { 0..=0 } else { 1..=case.steps() };
            for step in steps {
                for item in 0..asked_of(&case, number) {
                    for check in checks_of_item(&plan, number, step, item) {
                        assert!(check.holds, "{name} {number} {step} {item}: {}", check.text);
                    }
                }
            }
        }
    }
}

/// A fixed sequence of numbers that look random.
fn next(seed: &mut u64) -> usize {
    *seed = seed
        .wrapping_mul(6_364_136_223_846_793_005)
        .wrapping_add(1_442_695_040_888_963_407);
    (*seed >> 33) as usize
}

#[test]
fn every_refusal_of_a_damaged_example_is_explained() {
    let mut seed = 1;
    let mut refusals = 0;
    for name in EXAMPLES {
        let input = example(name);
        let lists = [&input.case_bytes, &input.plan_bytes].map(|it| read_all(it).unwrap());
        for round in 0..800 {
            let [mut case, mut plan] = lists.clone();
            let list = if round % 2 == 0 { &mut case } else { &mut plan };
            let at = next(&mut seed) % list.len();
            let by = (next(&mut seed) as i64 % 5_000) >> (next(&mut seed) % 12);
            let up = next(&mut seed).is_multiple_of(2);
            list[at] += if up { by } else { -by };
            let Err(refusal) = judge(&case, &plan) else {
                continue;
            };
            let damaged = explain::Input {
                case_bytes: write_all(&case).unwrap(),
                plan_bytes: write_all(&plan).unwrap(),
            };
            let explanation = explain_refusal(&damaged, refusal, None);
            assert!(!explanation.findings.is_empty(), "{name}: {refusal}");
            refusals += 1;
        }
    }
    assert!(refusals > 2_000, "{refusals}");
}
