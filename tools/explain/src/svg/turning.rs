//! Turns parts and bodies so that they are easily read.

use std::f64::consts::{FRAC_PI_6, PI};

use gasplan_text::model::{Arc, Case};

use super::fan::parallel;
use super::parts::{Body, Part};
use super::point::{Point, at};
use super::polygon;

/// What one arc across another costs, and what a pixel of an arc to another body does.
const ACROSS: f64 = 2.0;
const LENGTH: f64 = 0.008;
/// What parallel arcs cost that stand upright: texts lie, and fit between lying ones.
const UPRIGHT: f64 = 0.7;

/// Lays the long side of a part across, and its first node to the left.
pub fn lay_across(places: &mut [Point], nodes: &[usize]) {
    let middle = middle(places, nodes);
    let (mut along, mut across) = (0.0, 0.0);
    for &node in nodes {
        places[node] = places[node].minus(middle);
        let Point { x, y } = places[node];
        along += x * x - y * y;
        across += 2.0 * x * y;
    }
    let angle = -0.5 * f64::atan2(across, along);
    nodes
        .iter()
        .for_each(|&node| places[node] = places[node].turned(angle));
    if nodes.first().is_some_and(|&first| places[first].x > 0.0) {
        nodes
            .iter()
            .for_each(|&node| places[node].x = -places[node].x);
    }
}

fn middle(places: &[Point], nodes: &[usize]) -> Point {
    let sum = nodes
        .iter()
        .fold(at(0.0, 0.0), |sum, &node| sum.plus(places[node]));
    sum.times(1.0 / nodes.len().max(1) as f64)
}

/// Turns and mirrors each body so that its arcs to others are short and lie across few arcs.
pub fn face_others(case: &Case, part: &Part, places: &mut [Point]) {
    for body in part.bodies.iter().filter(|body| body.nodes.len() > 1) {
        let own = |node: usize| body.nodes.contains(&node);
        let arcs: Vec<&Arc> = case
            .arcs
            .iter()
            .filter(|arc| own(arc.from) || own(arc.to))
            .collect();
        let tried = turns(case, body, places).into_iter().map(|places| {
            let cost = crossings(&arcs, &places) + reach(case, body, &arcs, &places);
            (cost, places)
        });
        let best = tried.min_by(|(one, _), (other, _)| one.total_cmp(other));
        if let Some((_, best)) = best {
            places.copy_from_slice(&best);
        }
    }
}

/// All nodes' places with the body turned or mirrored about its middle; first as it is.
fn turns(case: &Case, body: &Body, places: &[Point]) -> Vec<Vec<Point>> {
    let middle = middle(places, &body.nodes);
    let widest = body.arcs.iter().max_by_key(|&&arc| parallel(case, arc));
    let lying = widest.map(|&arc| {
        let arc = &case.arcs[arc];
        let way = places[arc.to].minus(places[arc.from]);
        -way.y.atan2(way.x)
    });
    let angles = (0..12).map(|twelfth| FRAC_PI_6 * f64::from(twelfth));
    let angles = angles.chain(lying).chain(lying.map(|angle| angle + PI));
    let turned = |angle: f64, mirror: f64| {
        let mut turned = places.to_vec();
        for &node in &body.nodes {
            let Point { x, y } = places[node].minus(middle).turned(angle);
            turned[node] = middle.plus(at(x, mirror * y));
        }
        turned
    };
    let both = |angle: f64| [1.0, -1.0].map(|mirror| turned(angle, mirror));
    angles.flat_map(both).collect()
}

/// What arcs across each other cost.
fn crossings(arcs: &[&Arc], places: &[Point]) -> f64 {
    let mut sum = 0.0;
    for (place, arc) in arcs.iter().enumerate() {
        let others = arcs[..place].iter();
        sum += ACROSS
            * others
                .filter(|other| are_across(arc, other, places))
                .count() as f64;
    }
    sum
}

/// What long arcs to other bodies cost, and upright parallel arcs within.
fn reach(case: &Case, body: &Body, arcs: &[&Arc], places: &[Point]) -> f64 {
    let way = |arc: &Arc| places[arc.to].minus(places[arc.from]);
    let own = |node: usize| body.nodes.contains(&node);
    let outer = arcs.iter().filter(|arc| own(arc.from) != own(arc.to));
    let outer: f64 = outer.map(|arc| LENGTH * way(arc).length()).sum();
    let upright = body.arcs.iter().map(|&index| {
        let beside = (parallel(case, index) - 1) as f64;
        UPRIGHT * beside.min(1.0) * way(&case.arcs[index]).unit().y.abs()
    });
    outer + upright.sum::<f64>()
}

/// Do two arcs without a common end lie across each other?
pub fn are_across(one: &Arc, other: &Arc, places: &[Point]) -> bool {
    let ends = [one.from, one.to];
    if ends.contains(&other.from) || ends.contains(&other.to) {
        return false;
    }
    let line = |arc: &Arc| (places[arc.from], places[arc.to]);
    polygon::are_across(line(one), line(other))
}
