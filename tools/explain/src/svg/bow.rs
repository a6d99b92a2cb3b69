//! The line of an arc.

use super::point::{Point, at};

pub const NODE_RADIUS: f64 = 13.0;
/// Pixels from the middle of a sign on an arc to its edge.
pub const SIGN: f64 = 11.0;
/// So many straight lines follow a line.
const SEGMENTS: usize = 12;

/// A line: where it starts, what it bends to, and where it ends.
#[derive(Clone, Copy, Debug)]
pub struct Bow {
    points: [Point; 4],
    /// Where its sign stands, from 0 at its start to 1 at its end.
    pub sign: f64,
}

impl Bow {
    /// From one node to another, so far beside the straight line at its middle.
    pub fn between(from: Point, to: Point, offset: f64) -> Bow {
        let side = to.minus(from).unit().across().times(2.0 * offset);
        let bend = from.plus(to).times(0.5).plus(side);
        let trim = |node: Point| node.plus(bend.minus(node).unit().times(NODE_RADIUS));
        let (start, end) = (trim(from), trim(to));
        let towards = |end: Point| end.plus(bend.minus(end).times(2.0 / 3.0));
        Bow {
            points: [start, towards(start), towards(end), end],
            sign: 0.5,
        }
    }

    /// From a node to itself.
    pub fn around(node: Point) -> Bow {
        let ways = [(-10.0, -9.0), (-50.0, -66.0), (50.0, -66.0), (10.0, -9.0)];
        Bow {
            points: ways.map(|(x, y)| node.plus(at(x, y))),
            sign: 0.5,
        }
    }

    pub fn path(&self) -> String {
        let [start, one, two, end] = self.points.map(|it| format!("{:.1},{:.1}", it.x, it.y));
        format!("M{start} C{one} {two} {end}")
    }

    /// A point on the line, from 0 at its start to 1 at its end.
    pub fn at(&self, share: f64) -> Point {
        let rest = 1.0 - share;
        let shares = [
            rest * rest * rest,
            3.0 * rest * rest * share,
            3.0 * rest * share * share,
            share * share * share,
        ];
        let parts = self.points.iter().zip(shares);
        parts.fold(at(0.0, 0.0), |sum, (point, share)| {
            sum.plus(point.times(share))
        })
    }

    /// Where the sign stands.
    pub fn sign_place(&self) -> Point {
        self.at(self.sign)
    }

    /// Which way the line goes at a point of it.
    pub fn along(&self, share: f64) -> Point {
        let before = self.at((share - 0.01).max(0.0));
        self.at((share + 0.01).min(1.0)).minus(before).unit()
    }

    pub fn moved(&self, by: Point) -> Bow {
        Bow {
            points: self.points.map(|point| point.plus(by)),
            sign: self.sign,
        }
    }

    /// Points along the line, both ends with them.
    pub fn points(&self) -> impl Iterator<Item = Point> {
        (0..=SEGMENTS).map(|place| self.at(place as f64 / SEGMENTS as f64))
    }

    /// Short straight lines that follow the line.
    pub fn segments(&self) -> impl Iterator<Item = (Point, Point)> {
        self.points().zip(self.points().skip(1))
    }
}
