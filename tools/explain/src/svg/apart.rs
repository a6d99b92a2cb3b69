//! Bodies out of each other's way.

use super::parts::Part;
use super::piece::Piece;
use super::point::{Point, at};
use super::polygon::way_out;
use super::stress::Ways;

/// Room around a body.
const GAP: f64 = 14.0;
/// Rounds in which bodies go where arcs pull them and leave each other.
const ROUNDS: usize = 80;
/// After so many rounds in which they only leave, everything is spread by so much.
const LAST_ROUNDS: usize = 60;
const SPREAD: f64 = 1.06;
/// More rounds than it takes to spread everything a hundredfold.
const MOST_ROUNDS: usize = 6_000;

/// How each body has to move so that none is over another.
pub fn moves(part: &Part, bodies: &[Piece], places: &[Point], ways: &Ways) -> Vec<Point> {
    let outlines: Vec<Vec<Point>> = bodies.iter().map(|it| it.outline(GAP)).collect();
    let mut moves = vec![at(0.0, 0.0); bodies.len()];
    let nodes = part.nodes();
    for round in 0..ROUNDS {
        let pull = 0.6 * (1.0 - round as f64 / ROUNDS as f64);
        let mut moved = places.to_vec();
        for (body, by) in part.bodies.iter().zip(&moves) {
            body.nodes
                .iter()
                .for_each(|&node| moved[node] = moved[node].plus(*by));
        }
        for (body, by) in part.bodies.iter().zip(&mut moves) {
            *by = by.plus(ways.drift(&moved, body, &nodes).times(pull));
        }
        push(&outlines, &mut moves);
    }
    for round in 1..MOST_ROUNDS {
        if !push(&outlines, &mut moves) {
            break;
        }
        if round % LAST_ROUNDS == 0 {
            spread(&outlines, &mut moves);
        }
    }
    moves
}

/// Moves every two bodies that are over each other out of each other's way. Were there any?
fn push(outlines: &[Vec<Point>], moves: &mut [Point]) -> bool {
    let moved = |outline: &[Point], by: Point| -> Vec<Point> {
        outline.iter().map(|point| point.plus(by)).collect()
    };
    let mut found = false;
    for one in 0..outlines.len() {
        for other in 0..one {
            let (first, second) = (
                moved(&outlines[one], moves[one]),
                moved(&outlines[other], moves[other]),
            );
            if let Some(way) = way_out(&first, &second) {
                // A little more than needed, so that rounding ends it.
                let way = way.times(0.5).plus(way.unit().times(0.05));
                moves[one] = moves[one].plus(way);
                moves[other] = moves[other].minus(way);
                found = true;
            }
        }
    }
    found
}

/// Moves all bodies away from their middle.
fn spread(outlines: &[Vec<Point>], moves: &mut [Point]) {
    for (outline, by) in outlines.iter().zip(moves) {
        let count = outline.len().max(1) as f64;
        let sum = outline.iter().fold(at(0.0, 0.0), |sum, it| sum.plus(*it));
        let middle = sum.times(1.0 / count).plus(*by);
        *by = by.plus(middle.times(SPREAD - 1.0));
    }
}
