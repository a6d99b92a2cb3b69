//! The reach of 26: how far the machines raise the pressure that the in end has in the step, whatever p0 it had.

mod common;

use common::{accepts, ask, example, refusal, refusals, says};
use explain::noes::noes;
use gasplan::{Refusal, read_all};
use gasplan_text::model::{Case, Plan};
use gasplan_text::words;

/// The steps in which the compressor of `drift` or `drift-idle` raises the pressure above what its machines would reach from p0 of the in end.
fn past_reach_of_p0(name: &str) -> Vec<usize> {
    let input = example(name);
    let case = Case::of(&read_all(&input.case_bytes).unwrap()).unwrap();
    let list = read_all(&input.plan_bytes).unwrap();
    let plan = Plan::new(&case, &list);
    let past = |&step: &usize| {
        let on = words::items(plan.arc(step, 0).machines);
        let gains = on
            .iter()
            .map(|&it| case.stations[0].machines[it].ratio - 1_000);
        1_000 * plan.pressure(step, 2) > case.nodes[1].p0 * (1_000 + gains.sum::<i64>())
    };
    (1..=case.steps()).filter(past).collect()
}

fn every_no(name: &str) -> Vec<Refusal> {
    refusals(&noes(&example(name), None).rows)
}

/// One case, and a plan for each way in which the reach from p0 was wrong. All other questions have a yes.
#[test]
fn both_ways_of_drift_are_shown() {
    assert_eq!(
        example("drift").case_bytes,
        example("drift-idle").case_bytes
    );
    assert_eq!(
        every_no("drift"),
        [7, 8, 9, 10].map(|step| refusal(26, step, 0))
    );
    assert_eq!(past_reach_of_p0("drift"), []);
    assert_eq!(every_no("drift-idle"), []);
    assert_eq!(past_reach_of_p0("drift-idle"), [9]);
}

#[test]
fn the_pressure_of_the_in_end_is_named() {
    says(
        "drift",
        &[
            "refused 26 7 0",
            "compressor 0 (node 1 to 2, station 0), step 7, 21600 s to 25200 s: p at the out end, node 2, = 74974, over the 51758 \
             that its machines reach by 23,216 mbar",
            "    from p at the in end, node 1, = 41407: 41407 × (1000 + 250) / 1000, rounded down",
        ],
    );
    // the in end is `to` in step 5
    says(
        "line --all --change case 'station 0 machine 0 ratio' 1001",
        &[
            "refused 26 2 0",
            "           p at the out end, node 3, = 51163, over the 50609 that its machines reach by 554 mbar",
            "               from p at the in end, node 2, = 45967: 45967 × (1000 + 1 + 100) / 1000, rounded down",
            "           p at the out end, node 2, = 48982, over the 47108 that its machines reach by 1,874 mbar",
            "               from p at the in end, node 3, = 47061: 47061 × (1000 + 1) / 1000, rounded down",
        ],
    );
}

/// All machines of the station together don't reach what `drift` has in step 7, unless the second were stronger.
#[test]
fn more_machines_reach_further() {
    let with = |steps: &[usize]| {
        let on = |step| format!(" --change plan 'step {step} arc 0 machines' '{{0 1}}'");
        format!("drift{}", steps.iter().map(on).collect::<String>())
    };
    let all = [7, 8, 9, 10];
    says(
        &with(&all),
        &[
            "refused 26 7 0",
            "compressor 0 (node 1 to 2, station 0), step 7, 21600 s to 25200 s: p at the out end, node 2, = 74974, over the 73704 \
             that its machines reach by 1,270 mbar",
            "    from p at the in end, node 1, = 41407: 41407 × (1000 + 250 + 530) / 1000, rounded down",
        ],
    );
    let stronger = "--change case 'station 0 machine 1 ratio' 1600";
    accepts(&format!("{} {stronger}", with(&all)));
    says(
        &format!("{} {stronger}", with(&[7, 8, 10])),
        &["refused 26 9 0"],
    );
}

/// Only 28 of the first step goes by p0.
#[test]
fn p0_has_no_say() {
    for p0 in [0, 41_407, 200_000] {
        let changed = |name: &str| ask(&format!("{name} --all --change case 'node 1 p0' {p0}"));
        let text = changed("drift").text;
        assert!(text.starts_with("refused 28 1 1\n"), "{text}");
        assert!(text.contains(": 5 (28: 1, 26: 4). "), "{text}");
        let text = changed("drift-idle").text;
        assert!(text.contains(": 1 (28: 1). "), "{text}");
    }
}

#[test]
fn with_no_machine_on_the_ends_are_equal() {
    for p in [68_418, 68_420] {
        let line = format!(
            "compressor 0 (node 1 to 2, station 0), step 9, 28800 s to 32400 s: p at node 1 = 68419, not p at node 2 = {p}: \
             off by 1 mbar (no machine is on, so they are to be equal)"
        );
        let command = format!("drift-idle --change plan 'step 9 node 2 p' {p}");
        says(&command, &["refused 26 9 0", &line]);
    }
}

/// Pressures below 0 are 21's, but `--all` goes on to 26.
#[test]
fn a_reach_is_rounded_down() {
    let with = |p_in: i64, p_out: i64| {
        let ends = [(2, p_in), (3, p_out)];
        let changes = ends.map(|(node, p)| format!(" --change plan 'step 1 node {node} p' {p}"));
        format!("line --all{}", changes.concat())
    };
    for (p_in, reach) in [(46_793, 51_472), (9, 9), (1, 1), (0, 0), (-1, -2)] {
        let out = format!("           p at the out end, node 3, = {}", reach + 1);
        let over = format!("{out}, over the {reach} that its machines reach by 1 mbar");
        let product = format!("{p_in} × (1000 + 100) / 1000, rounded down");
        let from = format!("               from p at the in end, node 2, = {p_in}: {product}");
        says(&with(p_in, reach + 1), &[&over, &from]);
        let text = ask(&with(p_in, reach)).text;
        assert!(!text.contains("machines reach"), "{p_in}: {text}");
    }
}

#[test]
fn margins_are_those_of_a_raised_pressure() {
    let text = ask("drift-idle --margins").text;
    let expected = "  26 no fall of pressure over a compressing arc
       compressor 0 (node 1 to 2, station 0), step 8: 3,019 mbar left (p at node 2 = 69666, at least p at node 1 = 66647)
       compressor 0 (node 1 to 2, station 0), step 7: 3,785 mbar left (p at node 2 = 70007, at least p at node 1 = 66222)
       compressor 0 (node 1 to 2, station 0), step 10: 3,844 mbar left (p at node 2 = 68523, at least p at node 1 = 64679)
";
    assert!(text.contains(expected), "{text}");
    let expected =
        "  26 p at the out end at most what the machines reach from p at the in end, compressing
       compressor 0 (node 1 to 2, station 0), step 10: 12,325 mbar left \
(p at the out end, node 2, = 68523, at most the 80848 that its machines reach)
";
    assert!(text.contains(expected), "{text}");
}
