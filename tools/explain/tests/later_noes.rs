//! What explain finds after the first "no", held against the second checker and the generator's own ranges.

mod common;

use std::collections::BTreeMap;
use std::ops::Range;

use common::{noes_of, refusal, refusals, second};
use gasplan::Refusal;
use inputs::aimed::AIMS;
use inputs::damage::any_number;
use inputs::model::Case;
use inputs::{Pair, Rng, generate};

const SEEDS: u64 = 900;
/// Plans with more numbers are left out.
const LARGE: usize = 2_000;

fn drawn(seed: u64) -> Option<(Rng, Pair)> {
    let mut rng = Rng::new(seed);
    let pair = generate::accepted(&mut rng);
    (pair.plan.list().len() <= LARGE).then_some((rng, pair))
}

/// How many numbers a step has, and where a node's, an arc's and a station's row stands in it.
struct Rows {
    nodes: usize,
    arcs: usize,
    stations: usize,
}

impl Rows {
    fn of(pair: &Pair) -> Rows {
        Rows {
            nodes: pair.case.nodes.len(),
            arcs: pair.case.arcs.len(),
            stations: pair.case.stations.len(),
        }
    }

    fn step(&self, step: usize) -> Range<usize> {
        let width = 6 * self.nodes + 4 * self.arcs + 2 * self.stations;
        let start = 2 + (step - 1) * width;
        start..start + width
    }

    fn node(&self, step: usize, node: usize) -> Range<usize> {
        let start = self.step(step).start + 6 * node;
        start..start + 6
    }

    fn arc(&self, step: usize, arc: usize) -> Range<usize> {
        let start = self.step(step).start + 6 * self.nodes + 4 * arc;
        start..start + 4
    }

    fn station(&self, step: usize, station: usize) -> Range<usize> {
        let start = self.step(step).start + 6 * self.nodes + 4 * self.arcs + 2 * station;
        start..start + 2
    }
}

/// Another choice, or a wild or a small change of a number.
fn changed(rng: &mut Rng, number: i64) -> i64 {
    match rng.below(6) {
        0 => any_number(rng),
        1..=3 => rng.within(0..=4),
        _ => number.wrapping_add(rng.within(-300..=300)),
    }
}

/// The plan with one part of another.
fn with_part(plan: &[i64], other: &[i64], part: Range<usize>) -> Vec<i64> {
    let mut plan = plan.to_vec();
    plan[part.clone()].copy_from_slice(&other[part]);
    plan
}

/// The first "no" of an item in a step, of these numbers.
fn first(rows: &[Refusal], numbers: Range<i64>, step: usize, place: usize) -> Option<Refusal> {
    let is_it =
        |row: &&Refusal| numbers.contains(&row.number) && (row.step, row.place) == (step, place);
    rows.iter().find(is_it).copied()
}

/// Damages rows of one group everywhere. With one such row alone in an accepted plan, the second checker's first "no"
/// is that row's first "no", if it has one: the row's questions see nothing of the group's other rows.
fn rows_by_themselves(
    numbers: Range<i64>,
    items: impl Fn(&Rows) -> usize,
    row: impl Fn(&Rows, usize, usize) -> Range<usize>,
) -> BTreeMap<i64, usize> {
    let mut hit = BTreeMap::new();
    for (mut rng, pair) in (0..SEEDS).filter_map(drawn) {
        let rows = Rows::of(&pair);
        let (case, plan) = (pair.case.list(), pair.plan.list());
        let mut damaged = plan.clone();
        let mut places = Vec::new();
        for step in 1..=pair.steps() {
            places.extend((0..items(&rows)).map(|place| (step, place)));
        }
        for &(step, place) in &places {
            let at = row(&rows, step, place).start + rng.below(row(&rows, step, place).len());
            if rng.flip() {
                damaged[at] = changed(&mut rng, damaged[at]);
            }
        }
        let found = refusals(&noes_of(&case, &damaged).rows);
        for (step, place) in places {
            let alone = with_part(&plan, &damaged, row(&rows, step, place));
            let wanted = second(&case, &alone).filter(|it| numbers.contains(&it.number));
            let is = first(&found, numbers.clone(), step, place);
            assert_eq!(is, wanted, "step {step}, item {place}");
            if let Some(Refusal { number, .. }) = wanted {
                *hit.entry(number).or_default() += 1;
            }
        }
    }
    hit
}

/// Was each of these numbers a "no" often enough?
fn all_hit(hit: &BTreeMap<i64, usize>, numbers: impl IntoIterator<Item = i64>) {
    for number in numbers {
        let hits = hit.get(&number).copied().unwrap_or(0);
        assert!(hits >= 10, "{number}: {hit:?}");
    }
}

#[test]
fn nodes_by_themselves() {
    let hit = rows_by_themselves(21..24, |rows| rows.nodes, Rows::node);
    all_hit(&hit, 21..24);
}

#[test]
fn arcs_by_themselves() {
    let hit = rows_by_themselves(24..30, |rows| rows.arcs, Rows::arc);
    all_hit(&hit, 24..30);
}

#[test]
fn stations_by_themselves() {
    let hit = rows_by_themselves(30..33, |rows| rows.stations, Rows::station);
    all_hit(&hit, [30, 32]);
}

/// Aimed changes of several steps at once, as far as they change the plan alone.
fn changed_in_many_steps(rng: &mut Rng, pair: &Pair) -> Vec<i64> {
    let (case, before) = (pair.case.list(), pair.plan.list());
    let mut plan = before.clone();
    for _ in 0..30 {
        let (_, aim) = AIMS[rng.below(AIMS.len())];
        let Some(aimed) = aim(rng, pair) else {
            continue;
        };
        if aimed.case == case && aimed.plan.len() == plan.len() && aimed.plan[..2] == plan[..2] {
            let pairs = plan.iter_mut().zip(aimed.plan.iter().zip(&before));
            pairs.for_each(|(is, (aimed, before))| {
                if aimed != before {
                    *is = *aimed;
                }
            });
        }
    }
    plan
}

/// A step sees the pressures of the step before and nothing else of other steps. Alone in an accepted plan it has the
/// same first "no", where the pressures before it are the accepted ones.
#[test]
fn steps_by_themselves() {
    let mut hit = BTreeMap::new();
    for (mut rng, pair) in (0..SEEDS).filter_map(drawn) {
        let rows = Rows::of(&pair);
        let (case, plan) = (pair.case.list(), pair.plan.list());
        let damaged = changed_in_many_steps(&mut rng, &pair);
        let found = refusals(&noes_of(&case, &damaged).rows);
        for step in 1..=pair.steps() {
            let pressure = |node: usize| rows.node(step - 1, node).start;
            let kept = |node: usize| plan[pressure(node)] == damaged[pressure(node)];
            if step > 1 && !(0..rows.nodes).all(kept) {
                continue;
            }
            let alone = with_part(&plan, &damaged, rows.step(step));
            let wanted = second(&case, &alone).filter(|it| it.step == step);
            let is = found.iter().find(|row| row.step == step).copied();
            assert_eq!(is, wanted, "step {step}");
            if let Some(Refusal { number, .. }) = wanted {
                *hit.entry(number).or_default() += 1;
            }
        }
    }
    all_hit(&hit, (21..=28).chain([30, 33]));
}

/// Changes fields that no row's place depends on.
fn change_values(rng: &mut Rng, case: &mut Case) {
    for _ in 0..=rng.below(5) {
        let number = any_number(rng);
        let node = rng.below(case.nodes.len());
        let node = &mut case.nodes[node];
        match rng.below(10) {
            0 => case.mass_tolerance = number,
            1 => case.pressure_tolerance = number,
            2 => case.times[0] = number % 1_000_000,
            3 => node.low = number,
            4 => node.high = number,
            5 => node.actlow = number % 300_000,
            6 => node.acthigh = number % 300_000,
            7 => node.demands[0] = number,
            8 => {
                if let Some(arc) = case.arcs.last_mut() {
                    arc.more[rng.below(7)] = number;
                }
            }
            _ => {
                if let Some(station) = case.stations.first_mut() {
                    station.directions[0][rng.below(3)] = number;
                    station.states[0][rng.below(4)] = number;
                }
            }
        }
    }
}

#[test]
fn every_field_out_of_range_is_listed() {
    let mut several = 0;
    for (mut rng, pair) in (0..SEEDS).filter_map(drawn) {
        let mut case = pair.case.clone();
        change_values(&mut rng, &mut case);
        let fields = case.fields();
        let wrong =
            |(_, field): &(usize, &inputs::model::Field)| !field.range.contains(&field.value);
        let places = fields
            .iter()
            .enumerate()
            .filter(wrong)
            .map(|(place, _)| place);
        let wanted: Vec<Refusal> = places.map(|place| refusal(11, 0, place)).collect();
        if wanted.is_empty() {
            continue;
        }
        let found = noes_of(&case.list(), &pair.plan.list());
        assert_eq!(refusals(&found.rows), wanted);
        let last = found.left_out.last().unwrap();
        assert!(last.starts_with("13 to 17 and 20 to 33: "), "{last}");
        several += usize::from(wanted.len() > 1);
    }
    assert!(several >= 50, "{several}");
}
