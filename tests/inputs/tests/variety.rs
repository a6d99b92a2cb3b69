//! What the generator makes: every kind of thing, and the same things from the same seed.

use inputs::Rng;
use inputs::counts::{Counts, note, seldom};
use inputs::generate::{Size, accepted, of_size};
use inputs::model::{
    Arc, ArcRow, BOTH_WAYS, C, COMBINED, COMPRESSOR, F, G, H, INNER, MOST_FLOW, MOST_PRESSURE,
    NodeRow, OUT_BOUND, PIPE, Pair, REGULATING, REGULATOR, SHORTCUT, VALVE, is_backward,
};
use inputs::reach::{overreach, overreach_from_p0};

const PAIRS: u64 = 1_500;

/// Each thing has to occur this often.
const LEAST: u64 = 20;

fn note_case(counts: &mut Counts, pair: &Pair) {
    let case = &pair.case;
    note(counts, "one node", case.nodes.len() == 1);
    note(counts, "60 nodes", case.nodes.len() == 60);
    note(counts, "no arcs", case.arcs.is_empty());
    note(counts, "48 steps", pair.steps() == 48);
    note(counts, "E 0", case.mass_tolerance == 0);
    note(counts, "E 1,000,000", case.mass_tolerance == 1_000_000);
    note(counts, "H 0", case.pressure_tolerance == 0);
    note(counts, "H 1,000", case.pressure_tolerance == 1_000);
    note(counts, "dt 1", case.span(1) == 1);
    note(counts, "dt 86,400", case.span(1) == 86_400);
    note(counts, "several stations", case.stations.len() > 1);
    for (index, station) in case.stations.iter().enumerate() {
        let arcs = case.station_arcs(index).len();
        note(counts, "several directions", station.directions.len() > 1);
        note(counts, "several states", station.states.len() > 1);
        note(counts, "several machines", station.machines.len() > 1);
        note(counts, "12 machines", station.machines.len() == 12);
        note(counts, "8 directions", station.directions.len() == 8);
        note(counts, "16 states", station.states.len() == 16);
        note(counts, "station with 30 arcs", arcs == 30);
        note(counts, "station without arcs", arcs == 0);
        note(counts, "fence nodes", !case.fence(index).is_empty());
    }
}

fn note_node(counts: &mut Counts, kind: i64, row: NodeRow, demand: i64) {
    note(counts, format!("node kind {kind}"), true);
    note(counts, "s+", row.s_plus > 0);
    note(counts, "s-", row.s_minus > 0);
    note(counts, "u+", row.u_plus > 0);
    note(counts, "u-", row.u_minus > 0);
    note(counts, "p 0", row.p == 0);
    note(counts, "p 200,000", row.p == MOST_PRESSURE);
    note(counts, "d 10,000,000", row.d == MOST_FLOW);
    note(counts, "d -10,000,000", row.d == -MOST_FLOW);
    note(counts, "s+ 10,000,000", row.s_plus == MOST_FLOW);
    note(counts, "u- 200,000", row.u_minus == MOST_PRESSURE);
    note(
        counts,
        "boundary node without demand",
        kind > 0 && demand == 0,
    );
}

fn note_arc(counts: &mut Counts, arc: &Arc, row: ArcRow) {
    let flows = row.a != 0 || row.b != 0;
    match arc.kind {
        VALVE => {
            note(counts, "valve shut", row.setting == 0);
            note(counts, "valve open with flow", row.setting == 1 && flows);
            note(counts, "valve with both flows", row.a > 0 && row.b > 0);
        }
        REGULATOR => note(counts, "regulator with flow", flows),
        PIPE => {
            note(counts, "pipe backward", row.a < 0 && row.b < 0);
            note(counts, "pipe filled from both ends", row.a > 0 && row.b < 0);
            note(counts, "pipe with unequal flows", row.a != row.b);
            let rubs = [arc.more[F], arc.more[G], row.a, row.b]
                .iter()
                .all(|&it| it != 0);
            note(counts, "pipe with friction", rubs);
            note(counts, "pipe with slope", arc.more[H] != 0);
            note(counts, "pipe flow at qmax", row.a == arc.qmax && flows);
            note(counts, "c 1", arc.more[C] == 1);
            note(counts, "c 100,000,000", arc.more[C] == 100_000_000);
            note(counts, "a 10,000,000", row.a == MOST_FLOW);
            note(counts, "a -10,000,000", row.a == -MOST_FLOW);
        }
        SHORTCUT => note_artificial(counts, "shortcut", arc, row),
        REGULATING => note_artificial(counts, "regulating", arc, row),
        COMPRESSOR => note_artificial(counts, "compressor", arc, row),
        _ => {
            assert_eq!(arc.kind, COMBINED);
            note_artificial(counts, "combined", arc, row);
            note(counts, "combined 3", row.setting == 3);
            note(counts, "combined 4", row.setting == 4);
        }
    }
}

fn note_artificial(counts: &mut Counts, name: &str, arc: &Arc, row: ArcRow) {
    let backward = is_backward(row.setting);
    let flows = row.a != 0 || row.b != 0;
    note(counts, format!("{name} off"), row.setting == 0);
    note(counts, format!("{name} backward"), backward);
    note(
        counts,
        format!("{name} backward with flow"),
        backward && flows,
    );
    note(
        counts,
        format!("{name} forward with flow"),
        !backward && flows,
    );
    if name != "shortcut" {
        note(counts, format!("{name} one-way"), arc.more[BOTH_WAYS] == 0);
    }
    if arc.has_machines() {
        let several = row.machines.count_ones() > 1;
        note(counts, format!("{name} with several machines"), several);
    }
}

/// Compressing with an empty out bound: what the out end is, and whether its acthigh is reached and is not high.
fn note_empty_bound(counts: &mut Counts, pair: &Pair, step: usize, arc: usize) {
    let out = pair.compressed(step, arc);
    let out = out.filter(|_| pair.case.arcs[arc].more[OUT_BOUND] == 0);
    let backward = is_backward(pair.arc(step, arc).setting);
    let node = &pair.case.nodes[pair.ends(step, arc).1];
    let no_demand = node.kind != INNER && node.demands[step - 1] == 0;
    let tight = out == Some(node.acthigh) && node.acthigh < node.high;
    for (way, is_way) in [("forward", !backward), ("backward", backward)] {
        let mut note = |part: &str, occurs: bool| {
            let occurs = occurs && is_way && out.is_some();
            note(counts, format!("empty bound {way} {part}"), occurs);
        };
        note("inner", node.kind == INNER);
        note("boundary", node.kind != INNER);
        note("without demand", no_demand);
        note("tight", tight);
    }
}

/// Compressing: with no machine on above and below p0, past what p0 would reach, as far as the machines reach, and from 0.
fn note_reach(counts: &mut Counts, pair: &Pair, step: usize, arc: usize) {
    let row = pair.arc(step, arc);
    let (in_end, _) = pair.ends(step, arc);
    let (p, p0) = (pair.pressure(step, in_end), pair.case.nodes[in_end].p0);
    let over = overreach(pair, step, arc);
    let past_p0 = overreach_from_p0(pair, step, arc).is_some_and(|over| over > 0);
    let idle = over.is_some() && row.machines == 0;
    let works = over.is_some() && row.machines != 0;
    let backward = is_backward(row.setting);
    for (way, is_way) in [("forward", !backward), ("backward", backward)] {
        let mut note = |part: &str, occurs: bool| {
            note(counts, format!("{part} {way}"), occurs && is_way);
        };
        note("idle above p0", idle && p > p0);
        note("idle below p0", idle && p < p0);
        note("machines past the reach of p0", works && past_p0);
        note("machines at their reach", works && over == Some(0) && p > 0);
        note("compressing from 0", over.is_some() && p == 0);
    }
}

#[test]
fn everything_occurs() {
    let mut counts = Counts::new();
    for seed in 0..PAIRS {
        let pair = accepted(&mut Rng::new(seed));
        note_case(&mut counts, &pair);
        for (index, step) in pair.plan.steps.iter().enumerate() {
            for (row, node) in step.nodes.iter().zip(&pair.case.nodes) {
                note_node(&mut counts, node.kind, *row, node.demands[index]);
            }
            for (arc, row) in step.arcs.iter().enumerate() {
                note_arc(&mut counts, &pair.case.arcs[arc], *row);
                note_empty_bound(&mut counts, &pair, index + 1, arc);
                note_reach(&mut counts, &pair, index + 1, arc);
            }
        }
    }
    let seldom = seldom(&counts, LEAST);
    assert!(seldom.is_empty(), "{seldom:?}");
}

#[test]
fn the_largest_size_is_reached() {
    let pair = of_size(&mut Rng::new(1), Size::LARGEST);
    assert_eq!(pair.case.nodes.len(), 60);
    assert_eq!(pair.case.arcs.len(), 120);
    assert_eq!(pair.case.stations.len(), 8);
    assert_eq!(pair.steps(), 48);
}

#[test]
fn a_seed_gives_the_same_pair_again() {
    for seed in 0..50 {
        let [one, other] = [0; 2].map(|_| accepted(&mut Rng::new(seed)));
        assert_eq!(one.case.list(), other.case.list());
        assert_eq!(one.plan.list(), other.plan.list());
    }
}

#[test]
fn fields_of_accepted_cases_lie_in_their_ranges() {
    for seed in 0..200 {
        let pair = accepted(&mut Rng::new(seed));
        for (place, field) in pair.case.fields().iter().enumerate() {
            let inside = field.range.contains(&field.value);
            assert!(inside, "seed {seed}, place {place}: {field:?}");
        }
    }
}
