//! Places that follow wanted distances as well as they can.

use gasplan_text::model::Case;

use super::parts::Body;
use super::point::{Point, at};

/// From one node of a station to another that no arc joins to it.
const UNJOINED: f64 = 200.0;

/// The distance that each two nodes should have, in pixels.
pub struct Ways {
    ways: Vec<Vec<f64>>,
}

impl Ways {
    /// The shortest ways along arcs of these lengths. Parts that nothing joins are infinitely far apart.
    pub fn new(case: &Case, length: impl Fn(usize) -> f64) -> Ways {
        let count = case.nodes.len();
        let mut ways = Ways {
            ways: vec![vec![f64::INFINITY; count]; count],
        };
        for (index, arc) in case.arcs.iter().enumerate() {
            // Of parallel arcs the longest counts.
            let before = Some(ways.between(arc.from, arc.to)).filter(|way| way.is_finite());
            let length = length(index);
            ways.set(arc.from, arc.to, before.map_or(length, |it| it.max(length)));
        }
        for station in 0..case.stations.len() {
            for pair in case.station_nodes(station).windows(2) {
                if ways.between(pair[0], pair[1]).is_infinite() {
                    ways.set(pair[0], pair[1], UNJOINED);
                }
            }
        }
        (0..count).for_each(|node| ways.set(node, node, 0.0));
        ways.shorten();
        ways
    }

    fn set(&mut self, one: usize, other: usize, way: f64) {
        self.ways[one][other] = way;
        self.ways[other][one] = way;
    }

    /// Where the way over a third node is shorter, takes it.
    fn shorten(&mut self) {
        for middle in 0..self.ways.len() {
            let second = self.ways[middle].clone();
            for row in &mut self.ways {
                let first = row[middle];
                for (way, second) in row.iter_mut().zip(&second) {
                    *way = way.min(first + second);
                }
            }
        }
    }

    pub fn between(&self, one: usize, other: usize) -> f64 {
        self.ways[one][other]
    }

    /// How the others would have a node move, near ones more than far ones; and how much they care.
    fn pull(&self, places: &[Point], node: usize, others: &[usize]) -> (Point, f64) {
        let (mut sum, mut weights) = (at(0.0, 0.0), 0.0);
        for &other in others.iter().filter(|&&other| other != node) {
            let wanted = self.ways[node][other].max(10.0);
            let away = places[node].minus(places[other]);
            let weight = 1.0 / (wanted * wanted);
            sum = sum.plus(away.unit().times((wanted - away.length()) * weight));
            weights += weight;
        }
        (sum, weights)
    }

    /// Moves each of the nodes in turn to where the others of them would have it.
    pub fn settle(&self, places: &mut [Point], nodes: &[usize], rounds: usize) {
        for _ in 0..rounds {
            for &node in nodes {
                let (sum, weights) = self.pull(places, node, nodes);
                if weights > 0.0 {
                    places[node] = places[node].plus(sum.times(1.0 / weights));
                }
            }
        }
    }

    /// How the other nodes would have a whole body move.
    pub fn drift(&self, places: &[Point], body: &Body, nodes: &[usize]) -> Point {
        let outer: Vec<usize> = nodes
            .iter()
            .filter(|node| !body.nodes.contains(node))
            .copied()
            .collect();
        let (mut sum, mut weights) = (at(0.0, 0.0), 0.0);
        for &node in &body.nodes {
            let (way, weight) = self.pull(places, node, &outer);
            sum = sum.plus(way);
            weights += weight;
        }
        match weights > 0.0 {
            true => sum.times(1.0 / weights),
            false => sum,
        }
    }
}
