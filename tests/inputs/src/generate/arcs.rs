//! Stations, and the arcs that are no pipes.

use super::{Draft, DraftArc, DraftStation, Role, Size, courses};
use crate::model::{
    Arc, BOTH_WAYS, COMBINED, MACHINES, MOST_FLOW, MOST_WEIGHT, REGULATOR, SHORTCUT, STATION,
    StationRow, VALVE, WEIGHT,
};
use crate::rng::Rng;

const MOST_STATION_ARCS: usize = 30;

/// Adds stations and arcs until the size is reached, and puts the arcs in a random order.
pub fn draw(rng: &mut Rng, draft: &mut Draft, size: Size) {
    draw_stations(rng, draft, size);
    // Sometimes one station gets all it can hold.
    let crowded = rng.once_in(6) || (size.stations == 1 && size.arcs > MOST_STATION_ARCS);
    while size.nodes > 1 && draft.arcs.len() < size.arcs {
        let kind = if crowded {
            rng.within(SHORTCUT..=COMBINED)
        } else {
            [0, 0, 1, 3, 4, 5, 5, 6, 6][rng.below(9)]
        };
        let arc = match kind {
            VALVE => None,
            REGULATOR => regulator(rng, draft),
            _ => artificial(rng, draft, kind),
        };
        let arc = arc.unwrap_or_else(|| valve(rng, size.nodes));
        draft
            .arcs
            .push(DraftArc::new(arc, Role::Other, draft.steps()));
    }
    rng.shuffle(&mut draft.arcs);
    for station in 0..draft.stations.len() {
        draw_directions(rng, draft, station);
    }
}

fn draw_stations(rng: &mut Rng, draft: &mut Draft, size: Size) {
    let mut left: Vec<usize> = (0..size.nodes).collect();
    rng.shuffle(&mut left);
    if !draft.courses.is_empty() && rng.below(4) > 0 {
        // Stations begin with the nodes whose pressures drift.
        left.sort_by_key(|&node| courses::drifts(draft, node));
    }
    for station in 0..size.stations {
        let count = if left.len() < 2 {
            0
        } else {
            (2 + rng.below(5)).min(left.len())
        };
        let nodes = left.split_off(left.len() - count);
        for &node in &nodes {
            draft.station_of[node] = Some(station);
        }
        let machines = rng.skewed(0..=12);
        draft.stations.push(DraftStation {
            nodes,
            machines: (0..machines).map(|_| machine(rng)).collect(),
            rows: vec![StationRow::default(); draft.steps() + 1],
            ..DraftStation::default()
        });
    }
}

fn machine(rng: &mut Rng) -> [i64; 2] {
    let ratio = match rng.below(6) {
        0 => rng.skewed(1_001..=10_000),
        1 => 10_000,
        _ => rng.within(1_050..=2_500),
    };
    [rng.skewed(0..=MOST_FLOW), ratio]
}

fn two_of(rng: &mut Rng, nodes: &[usize]) -> (usize, usize) {
    let from = rng.below(nodes.len());
    let to = (from + 1 + rng.below(nodes.len() - 1)) % nodes.len();
    (nodes[from], nodes[to])
}

fn valve(rng: &mut Rng, nodes: usize) -> Arc {
    let all: Vec<usize> = (0..nodes).collect();
    let (from, to) = two_of(rng, &all);
    Arc {
        kind: VALVE,
        from,
        to,
        ..Arc::default()
    }
}

/// A regulator needs from ≥ to in every step.
fn regulator(rng: &mut Rng, draft: &Draft) -> Option<Arc> {
    (0..10).find_map(|_| {
        let arc = valve(rng, draft.kinds.len());
        let falls = (1..=draft.steps()).all(|t| draft.p[t][arc.from] >= draft.p[t][arc.to]);
        falls.then_some(Arc {
            kind: REGULATOR,
            ..arc
        })
    })
}

/// An arc between two nodes of a station that has room for it.
fn artificial(rng: &mut Rng, draft: &Draft, kind: i64) -> Option<Arc> {
    let open: Vec<usize> = (0..draft.stations.len())
        .filter(|&station| draft.stations[station].nodes.len() > 1)
        .filter(|&station| arcs_of(draft, station) < MOST_STATION_ARCS)
        .collect();
    let station = rng.pick(&open)?;
    let (from, to) = two_of(rng, &draft.stations[station].nodes);
    let mut arc = Arc {
        kind,
        from,
        to,
        ..Arc::default()
    };
    arc.more[STATION] = station as i64;
    arc.more[BOTH_WAYS] = if kind == SHORTCUT {
        1
    } else {
        rng.within(0..=1)
    };
    arc.more[WEIGHT] = rng.skewed(0..=MOST_WEIGHT);
    if arc.has_machines() {
        let all = (1 << draft.stations[station].machines.len()) - 1;
        arc.more[MACHINES] = if rng.flip() { all } else { rng.part_of(all) };
    }
    Some(arc)
}

fn arcs_of(draft: &Draft, station: usize) -> usize {
    let its = |it: &&DraftArc| it.arc.station() == Some(station);
    draft.arcs.iter().filter(its).count()
}

/// Directions give each fence node a part, and every step chooses one.
fn draw_directions(rng: &mut Rng, draft: &mut Draft, station: usize) {
    let fence = fence(draft, station);
    let count = rng.skewed(1..=8);
    let directions = (0..count).map(|_| direction(rng, fence)).collect();
    let mut chosen = rng.within(0..=count - 1);
    let steps = draft.steps();
    let station = &mut draft.stations[station];
    station.fence = fence;
    station.directions = directions;
    for step in 1..=steps {
        if rng.once_in(3) {
            chosen = rng.within(0..=count - 1);
        }
        station.rows[step].direction = chosen;
    }
}

fn direction(rng: &mut Rng, fence: i64) -> [i64; 3] {
    let entry = fence & rng.bits() as i64;
    let rest = fence & !entry;
    let exit = match rng.below(3) {
        0 => rng.part_of(rest),
        _ => rest,
    };
    [entry, exit, rng.skewed(0..=MOST_WEIGHT)]
}

/// The station's nodes that end an arc of its own and an arc of no station.
fn fence(draft: &Draft, station: usize) -> i64 {
    let (mut inside, mut ordinary) = (0, 0);
    for it in &draft.arcs {
        let ends = 1 << it.arc.from | 1 << it.arc.to;
        match it.arc.station() {
            None => ordinary |= ends,
            Some(its) if its == station => inside |= ends,
            Some(_) => {}
        }
    }
    inside & ordinary
}
