//! Lines for arcs: parallel ones beside each other, and clear of nodes that they do not end at.

use gasplan_text::model::{Arc, Case};

use super::area::Area;
use super::bow::{Bow, SIGN};
use super::labels::Drawn;
use super::point::Point;
use super::polygon::holds;
use super::texts::Texts;
use crate::explanation::Mark;

/// Parallel arcs lie at least and at most so far apart, and all of them within so much.
const APART: (f64, f64) = (17.0, 64.0);
const MOST_SPREAD: f64 = 440.0;
/// Texts fit between so many parallel arcs at most.
const MOST_WITH_ROOM: usize = 8;
/// An arc nearer to a node than this seems to end there.
const CLEAR: f64 = 27.0;
/// By so much arcs may give way.
const SHIFTS: [f64; 9] = [0.0, 26.0, -26.0, 52.0, -52.0, 84.0, -84.0, 120.0, -120.0];
/// Where signs may stand, and what it costs to be off the middle.
const SIGN_PLACES: [f64; 7] = [0.5, 0.43, 0.57, 0.36, 0.64, 0.29, 0.71];
const OFF_MIDDLE: f64 = 150.0;

/// A convex outline that arcs had better not pass through, and the nodes that stand in it.
pub struct Block {
    pub outline: Vec<Point>,
    pub nodes: Vec<usize>,
}

fn ends(arc: &Arc) -> (usize, usize) {
    (arc.from.min(arc.to), arc.from.max(arc.to))
}

/// How many arcs have the same ends as this one, itself with them.
pub fn parallel(case: &Case, index: usize) -> usize {
    let own = ends(&case.arcs[index]);
    case.arcs.iter().filter(|arc| ends(arc) == own).count()
}

/// Are there so many parallel arcs that no text fits between them?
pub fn is_crowded(case: &Case, index: usize) -> bool {
    parallel(case, index) > MOST_WITH_ROOM
}

/// How far the arcs parallel to this one may lie apart, all of them together.
pub fn spread(case: &Case, index: usize) -> f64 {
    let parallel = parallel(case, index) as f64;
    (parallel * APART.0).max((parallel * APART.1).min(MOST_SPREAD))
}

/// The lines of some arcs: parallel ones beside each other, and clear of nodes and blocks if that can be.
pub fn bows(
    texts: &Texts,
    places: &[Point],
    arcs: &[usize],
    nodes: &[usize],
    blocks: &[Block],
) -> Vec<(usize, Bow)> {
    let mut done: Vec<(usize, Bow)> = Vec::new();
    for &index in arcs {
        if done.iter().any(|(it, _)| *it == index) {
            continue;
        }
        let own = ends(&texts.case.arcs[index]);
        let parallel = |it: &&usize| ends(&texts.case.arcs[**it]) == own;
        let fan: Vec<usize> = arcs.iter().filter(parallel).copied().collect();
        let tried = SHIFTS.iter().map(|&shift| {
            let bows = shifted(texts, places, &fan, shift);
            let cost = shift.abs() + hindrance(places, &bows, own, nodes, blocks);
            (cost, bows)
        });
        let best = tried.min_by(|(one, _), (other, _)| one.total_cmp(other));
        if let Some((_, bows)) = best {
            done.extend(fan.into_iter().zip(bows));
        }
    }
    done
}

/// Parallel arcs, all of them shifted sideways by so much.
fn shifted(texts: &Texts, places: &[Point], fan: &[usize], shift: f64) -> Vec<Bow> {
    let apart = apart(texts, places, fan);
    let middle = (fan.len() - 1) as f64 / 2.0;
    let bow = |(place, &index): (usize, &usize)| {
        let arc = &texts.case.arcs[index];
        let (from, to) = (places[arc.from], places[arc.to]);
        // Beside the line from the lower node to the higher one, whichever way the arc goes.
        let side = if arc.from <= arc.to { 1.0 } else { -1.0 };
        match arc.from == arc.to {
            true => Bow::around(from),
            false => Bow::between(from, to, side * (shift + apart * (place as f64 - middle))),
        }
    };
    fan.iter().enumerate().map(bow).collect()
}

/// How far apart parallel arcs lie: signs and texts are to fit between.
fn apart(texts: &Texts, places: &[Point], fan: &[usize]) -> f64 {
    let arc = &texts.case.arcs[fan[0]];
    let across = places[arc.to].minus(places[arc.from]).unit().across();
    let room = |&index: &usize| {
        let (width, height) = texts.size(Mark::Arc(index));
        across.x.abs() * width + across.y.abs() * height
    };
    let room = fan.iter().map(room).fold(0.0, f64::max) + 2.0 * SIGN + 6.0;
    let most = spread(texts.case, fan[0]) / fan.len() as f64;
    room.min(APART.1).min(most)
}

/// How much arcs pass near to nodes that are not their ends, and through blocks without these.
fn hindrance(
    places: &[Point],
    bows: &[Bow],
    ends: (usize, usize),
    nodes: &[usize],
    blocks: &[Block],
) -> f64 {
    let is_end = |node: usize| node == ends.0 || node == ends.1;
    let mut sum = 0.0;
    for bow in bows {
        let points: Vec<Point> = bow.points().collect();
        for &node in nodes.iter().filter(|&&node| !is_end(node)) {
            let away = points.iter().map(|it| it.minus(places[node]).length());
            let nearest = away.fold(f64::INFINITY, f64::min);
            sum += 20.0 * (CLEAR - nearest).max(0.0);
        }
        let foreign = |block: &&Block| !block.nodes.iter().any(|&node| is_end(node));
        for block in blocks.iter().filter(foreign) {
            let inside = points.iter().filter(|it| holds(&block.outline, **it));
            sum += 12.0 * inside.count() as f64;
        }
    }
    sum
}

/// Puts the sign of each line where it hides least of what is drawn and of the others, and draws them.
pub fn put_signs(case: &Case, bows: &mut [(usize, Bow)], drawn: &mut Drawn) {
    bows.iter().for_each(|(_, bow)| drawn.bow(bow));
    for (index, bow) in bows {
        if is_crowded(case, *index) {
            drawn.sign(bow);
            continue;
        }
        let cost = |share: f64| {
            let hidden = drawn.hidden(Area::square(bow.at(share), SIGN));
            OFF_MIDDLE * (share - 0.5).abs() + hidden
        };
        let costs = SIGN_PLACES.map(|share| (cost(share), share));
        let best = costs
            .into_iter()
            .min_by(|one, other| one.0.total_cmp(&other.0));
        bow.sign = best.map_or(0.5, |(_, share)| share);
        drawn.sign(bow);
    }
}
