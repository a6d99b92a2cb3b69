//! Pieces of the picture of a network: items with their places, which move together.

use super::area::Area;
use super::bow::{Bow, NODE_RADIUS};
use super::labels::{Drawn, Label};
use super::point::Point;
use super::polygon::{self, are_across};

/// The outline of a station: one around all of it, or bands along its arcs.
pub type Hull = Vec<Vec<Point>>;

/// Items by their numbers, and what is written at them.
#[derive(Default)]
pub struct Piece {
    pub nodes: Vec<(usize, Point)>,
    pub bows: Vec<(usize, Bow)>,
    pub hulls: Vec<(usize, Hull)>,
    pub labels: Vec<Label>,
}

impl Piece {
    pub fn moved(&self, by: Point) -> Piece {
        let hull = |hull: &Hull| -> Hull {
            let outline = |it: &Vec<Point>| it.iter().map(|point| point.plus(by)).collect();
            hull.iter().map(outline).collect()
        };
        Piece {
            nodes: self
                .nodes
                .iter()
                .map(|(it, at)| (*it, at.plus(by)))
                .collect(),
            bows: self
                .bows
                .iter()
                .map(|(it, bow)| (*it, bow.moved(by)))
                .collect(),
            hulls: self
                .hulls
                .iter()
                .map(|(it, own)| (*it, hull(own)))
                .collect(),
            labels: self.labels.iter().map(|label| label.moved(by)).collect(),
        }
    }

    pub fn add(&mut self, other: Piece) {
        self.nodes.extend(other.nodes);
        self.bows.extend(other.bows);
        self.hulls.extend(other.hulls);
        self.labels.extend(other.labels);
    }

    /// Nodes, arcs and outlines, as far as texts should not cover them.
    pub fn drawn(&self) -> Drawn {
        let mut drawn = Drawn::default();
        self.nodes.iter().for_each(|(_, place)| drawn.node(*place));
        for (_, bow) in &self.bows {
            drawn.bow(bow);
            drawn.sign(bow);
        }
        self.hulls.iter().for_each(|(_, hull)| drawn.hull(hull));
        drawn
    }

    /// Points around everything in the piece.
    fn edge(&self) -> Vec<Point> {
        let nodes = self.nodes.iter();
        let nodes = nodes.flat_map(|(_, at)| Area::square(*at, NODE_RADIUS).corners());
        let bows = self.bows.iter().flat_map(|(_, bow)| bow.points());
        let hulls = self.hulls.iter().flat_map(|(_, hull)| hull.concat());
        let labels = self.labels.iter().flat_map(|it| it.area.corners());
        nodes.chain(bows).chain(hulls).chain(labels).collect()
    }

    pub fn area(&self) -> Area {
        Area::around(self.edge())
    }

    /// A convex outline so far around the piece.
    pub fn outline(&self, away: f64) -> Vec<Point> {
        let corners = self.edge().into_iter();
        let corners = corners.flat_map(|point| Area::square(point, away).corners());
        polygon::hull(corners.collect())
    }

    /// How often one arc lies across another.
    pub fn crossings(&self) -> usize {
        let bows = self.bows.iter();
        let lines: Vec<Vec<(Point, Point)>> =
            bows.map(|(_, bow)| bow.segments().collect()).collect();
        let area =
            |line: &Vec<(Point, Point)>| Area::around(line.iter().flat_map(|it| [it.0, it.1]));
        let areas: Vec<Area> = lines.iter().map(|line| area(line).grown(1.0)).collect();
        let mut count = 0;
        for one in 0..lines.len() {
            for other in (0..one).filter(|&other| areas[one].shared(areas[other]) > 0.0) {
                let pairs = lines[one]
                    .iter()
                    .flat_map(|it| lines[other].iter().map(move |other| (*it, *other)));
                count += pairs
                    .filter(|(one, other)| are_across(*one, *other))
                    .count();
            }
        }
        count
    }
}
