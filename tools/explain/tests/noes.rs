//! Every "no" that explain finds: the first is the library's, an accepted plan has none.

mod common;

use std::collections::BTreeMap;

use common::{ACCEPTED, ask, input_of, noes_of, refusal, refusals, second};
use explain::Input;
use explain::noes::noes;
use gasplan::Refusal;
use inputs::aimed::AIMS;
use inputs::damage::{any_list, damage_bytes, damage_list};
use inputs::{Pair, Rng, generate};

/// How many accepted pairs are drawn.
const SEEDS: u64 = 150;
/// Above this many numbers only some of the changes are made.
const LARGE: usize = 3_000;

struct Drawn {
    rng: Rng,
    pair: Pair,
    case: Vec<i64>,
    plan: Vec<i64>,
}

fn drawn(seed: u64) -> Drawn {
    let mut rng = Rng::new(seed);
    let pair = generate::accepted(&mut rng);
    let (case, plan) = (pair.case.list(), pair.plan.list());
    Drawn {
        rng,
        pair,
        case,
        plan,
    }
}

/// The first "no" is the library's verdict; gives that. Where a "no" is found, it is said what fails.
fn begins_with_the_verdict(input: &Input) -> Option<Refusal> {
    let verdict = input.verdict().err();
    let found = noes(input, None);
    let rows = refusals(&found.rows);
    assert_eq!(rows.first().copied(), verdict, "{rows:?}");
    assert!(found.rows.iter().all(|row| !row.findings.is_empty()));
    verdict
}

#[test]
fn an_accepted_plan_has_no_no() {
    for seed in 0..SEEDS {
        let Drawn { case, plan, .. } = drawn(seed);
        let found = noes_of(&case, &plan);
        assert!(found.rows.is_empty(), "{seed}: {:?}", refusals(&found.rows));
        assert!(found.left_out.is_empty());
    }
    for name in ACCEPTED {
        let text = ask(&format!("{name} --all")).text;
        assert!(text.contains("\nNo \"no\" in explain's own evaluation either"));
    }
}

#[test]
fn the_first_no_of_an_aimed_change_is_the_verdict() {
    let mut hit: BTreeMap<i64, usize> = BTreeMap::new();
    for seed in 0..SEEDS {
        let mut drawn = drawn(seed);
        for (name, aim) in AIMS {
            if drawn.plan.len() > LARGE && !drawn.rng.once_in(10) {
                continue;
            }
            let Some(aimed) = aim(&mut drawn.rng, &drawn.pair) else {
                continue;
            };
            let expect = aimed.expect;
            let wanted = refusal(expect.number.into(), expect.step, expect.place);
            let found = begins_with_the_verdict(&input_of(&aimed.case, &aimed.plan));
            assert_eq!(found, Some(wanted), "{name}, {seed}");
            *hit.entry(wanted.number).or_default() += 1;
        }
    }
    for number in (10..=17).chain(20..=33) {
        let hits = hit.get(&number).copied().unwrap_or(0);
        assert!(hits >= 20, "{number}: {hits}");
    }
}

#[test]
fn the_first_no_of_a_damaged_list_is_the_verdict() {
    let mut refused = 0;
    for seed in 0..SEEDS {
        let mut drawn = drawn(seed);
        let rounds = if drawn.plan.len() > LARGE { 2 } else { 24 };
        for round in 0..rounds {
            let (mut case, mut plan) = (drawn.case.clone(), drawn.plan.clone());
            let rng = &mut drawn.rng;
            match round % 6 {
                0 => case = any_list(rng, 40),
                1 => damage_list(rng, &mut case),
                2 => {
                    damage_list(rng, &mut case);
                    damage_list(rng, &mut plan);
                }
                _ => damage_list(rng, &mut plan),
            }
            let found = begins_with_the_verdict(&input_of(&case, &plan));
            assert_eq!(found, second(&case, &plan));
            refused += usize::from(found.is_some());
        }
    }
    assert!(refused > 2_000, "{refused}");
}

#[test]
fn the_first_no_of_damaged_bytes_is_the_verdict() {
    let mut by_bytes = [0; 8];
    for seed in 0..SEEDS {
        let mut drawn = drawn(seed);
        for round in 0..8 {
            let mut input = input_of(&drawn.case, &drawn.plan);
            let bytes = match round % 2 {
                0 => &mut input.case_bytes,
                _ => &mut input.plan_bytes,
            };
            damage_bytes(&mut drawn.rng, bytes);
            if let Some(Refusal { number, .. }) = begins_with_the_verdict(&input)
                && number < 8
            {
                by_bytes[number as usize] += 1;
            }
        }
    }
    for number in [1, 2, 5, 6] {
        assert!(by_bytes[number] >= 10, "{number}: {by_bytes:?}");
    }
}

/// Both changes of a list at once; where its length changed, one of them.
fn overlay(before: &[i64], one: &[i64], other: &[i64]) -> Vec<i64> {
    if before.len() != one.len() || before.len() != other.len() {
        return one.to_vec();
    }
    let merge = |((&before, &one), &other)| if one == before { other } else { one };
    before.iter().zip(one).zip(other).map(merge).collect()
}

#[test]
fn two_changes_at_once_begin_with_the_verdict() {
    for seed in 0..SEEDS {
        let mut drawn = drawn(seed);
        if drawn.plan.len() > LARGE {
            continue;
        }
        let mut made = Vec::new();
        for (_, aim) in AIMS {
            made.extend(aim(&mut drawn.rng, &drawn.pair));
        }
        for _ in 0..made.len().min(20) {
            let [one, other] = [0; 2].map(|_| &made[drawn.rng.below(made.len())]);
            let case = overlay(&drawn.case, &one.case, &other.case);
            let plan = overlay(&drawn.plan, &one.plan, &other.plan);
            let found = begins_with_the_verdict(&input_of(&case, &plan));
            assert_eq!(found, second(&case, &plan), "{seed}");
        }
    }
}
