//! Where the nodes of a part stand.
//!
//! Distances in the picture follow lengths along the arcs as well as they can. Of tries
//! from different starts, always the same ones, those with the fewest arcs across each
//! other come first.

use gasplan_text::model::{Arc, Case};

use super::area::Area;
use super::bow::{NODE_RADIUS, SIGN};
use super::fan::{is_crowded, spread};
use super::parts::Part;
use super::point::{Point, at};
use super::stress::Ways;
use super::texts::Texts;
use super::turning::{are_across, face_others, lay_across};
use crate::explanation::Mark;

const TRIES: u64 = 24;
/// Rounds in which nodes find their places: so many over their count, at least and at most.
const ROUNDS: (usize, usize, usize) = (12_000, 200, 1_500);
/// Rounds in which the nodes of a body find their places among themselves.
const INNER_ROUNDS: usize = 100;
/// Lengths of arcs, and how much longer one is at each station that it leaves.
const LENGTHS: (f64, f64) = (112.0, 270.0);
const OUT_OF_STATION: f64 = 36.0;
/// How much longer parallel arcs are for each pixel that they spread beyond one alone.
const FOR_SPREAD: f64 = 0.35;
const ALONE: f64 = 64.0;

/// The ways between nodes, by the room that the texts of arcs need.
pub fn ways(texts: &Texts, tight: f64) -> Ways {
    let case = texts.case;
    let station = |node: usize| {
        let at = |arc: &&Arc| arc.from == node || arc.to == node;
        case.arcs.iter().filter(at).find_map(Arc::station)
    };
    let everywhere = crowd(case.arcs.len(), case.nodes.len());
    let within = |station: usize| {
        let (arcs, nodes) = (case.station_arcs(station), case.station_nodes(station));
        crowd(arcs.len(), nodes.len())
    };
    Ways::new(case, |index| {
        let arc = &case.arcs[index];
        let left = match arc.station() {
            Some(_) => 0,
            None => [arc.from, arc.to].map(station).iter().flatten().count(),
        };
        let room = arc.station().map_or(1.0, within).max(everywhere);
        tight * (room * length(texts, index) + OUT_OF_STATION * left as f64)
    })
}

/// How much longer arcs are where there are many to a node, so that there is room between.
fn crowd(arcs: usize, nodes: usize) -> f64 {
    let per_node = arcs as f64 / nodes.max(1) as f64;
    1.0 + 0.14 * (per_node - 1.3).clamp(0.0, 5.0)
}

/// How long an arc is for its text.
fn length(texts: &Texts, index: usize) -> f64 {
    let (width, _) = texts.size(Mark::Arc(index));
    if is_crowded(texts.case, index) {
        // The text lies on the arc, after its sign.
        return 2.0 * (width + SIGN + NODE_RADIUS + 8.0);
    }
    let length = (width + 2.0 * NODE_RADIUS + 34.0).clamp(LENGTHS.0, LENGTHS.1);
    length + FOR_SPREAD * (spread(texts.case, index) - ALONE).max(0.0)
}

/// Places for the nodes of a part, in some ways, the best one first; nodes of other parts stay at the origin.
pub fn places(case: &Case, part: &Part, ways: &Ways) -> Vec<Vec<Point>> {
    let nodes = part.nodes();
    let tries = if nodes.len() > 3 { TRIES } else { 1 };
    let rounds = (ROUNDS.0 / nodes.len().max(1)).clamp(ROUNDS.1, ROUNDS.2);
    let tried = (0..tries).map(|seed| {
        let mut places = start(case, &nodes, ways, seed);
        ways.settle(&mut places, &nodes, rounds);
        lay_across(&mut places, &nodes);
        for body in &part.bodies {
            ways.settle(&mut places, &body.nodes, INNER_ROUNDS);
        }
        face_others(case, part, &mut places);
        let cost = tangle(case, part, &places) + 0.001 * strain(ways, &places, &nodes);
        (cost, places)
    });
    let mut tried: Vec<_> = tried.collect();
    tried.sort_by(|(one, _), (other, _)| one.total_cmp(other));
    tried.into_iter().map(|(_, places)| places).collect()
}

/// In columns by the distance from an outermost node, or anywhere.
fn start(case: &Case, nodes: &[usize], ways: &Ways, seed: u64) -> Vec<Point> {
    let mut places = vec![at(0.0, 0.0); case.nodes.len()];
    if seed > 0 {
        let mut state = seed;
        let mut any = || {
            state = state
                .wrapping_mul(6_364_136_223_846_793_005)
                .wrapping_add(1_442_695_040_888_963_407);
            (state >> 40) as f64 / 16_777_216.0
        };
        let reach = 150.0 * (nodes.len() as f64).sqrt();
        nodes
            .iter()
            .for_each(|&node| places[node] = at(reach * any(), reach * any()));
        return places;
    }
    let farthest = |from: usize| {
        let way = |node: &&usize| ways.between(from, **node);
        let found = nodes
            .iter()
            .max_by(|one, other| way(one).total_cmp(&way(other)));
        found.copied().unwrap_or(from)
    };
    let first = nodes.first().map_or(0, |&node| farthest(node));
    for (count, &node) in nodes.iter().enumerate() {
        let x = ways.between(first, node);
        let before = nodes[..count].iter();
        let row = before
            .filter(|&&it| (ways.between(first, it) - x).abs() < 80.0)
            .count();
        // Columns grow to both sides, so that a line of nodes starts as a line.
        let side = if row.is_multiple_of(2) { 1.0 } else { -1.0 };
        places[node] = at(x, 100.0 * side * row as f64);
    }
    places
}

/// How many arcs lie across each other or pass over nodes.
fn tangle(case: &Case, part: &Part, places: &[Point]) -> f64 {
    let inner = part.bodies.iter().flat_map(|body| &body.arcs);
    let arcs: Vec<&Arc> = part
        .arcs
        .iter()
        .chain(inner)
        .map(|&arc| &case.arcs[arc])
        .collect();
    let nodes = part.nodes();
    let mut sum = 0.0;
    for (place, arc) in arcs.iter().enumerate() {
        let ends = [arc.from, arc.to];
        let (from, to) = (places[arc.from], places[arc.to]);
        let others = arcs[..place].iter();
        sum += others.filter(|it| are_across(arc, it, places)).count() as f64;
        for &node in nodes.iter().filter(|node| !ends.contains(node)) {
            let near = Area::square(places[node], NODE_RADIUS + 6.0);
            if near.crossed(from, to) > 0.0 {
                sum += 2.0;
            }
        }
    }
    sum
}

/// How far distances are from the wanted ones, as a share, summed over pairs.
fn strain(ways: &Ways, places: &[Point], nodes: &[usize]) -> f64 {
    let pairs = nodes
        .iter()
        .flat_map(|&one| nodes.iter().map(move |&other| (one, other)));
    let off = pairs
        .filter(|(one, other)| one != other)
        .map(|(one, other)| {
            let wanted = ways.between(one, other).max(10.0);
            (places[one].minus(places[other]).length() / wanted - 1.0).powi(2)
        });
    off.sum()
}
