//! Which items hang together, and so are laid out together.

use gasplan_text::model::Case;

/// Nodes that stand fast to each other: those of a station, or a node alone. Stations that share a node are one body.
#[derive(Debug, Default)]
pub struct Body {
    pub nodes: Vec<usize>,
    /// The arcs with both ends among the nodes.
    pub arcs: Vec<usize>,
    pub stations: Vec<usize>,
}

/// Bodies that arcs join.
#[derive(Debug, Default)]
pub struct Part {
    pub bodies: Vec<Body>,
    /// The arcs from one body to another.
    pub arcs: Vec<usize>,
}

impl Part {
    pub fn nodes(&self) -> Vec<usize> {
        let nodes = self.bodies.iter().flat_map(|body| &body.nodes);
        nodes.copied().collect()
    }
}

/// Sets of nodes, each named by its lowest node.
struct Sets {
    lowest: Vec<usize>,
}

impl Sets {
    fn join(&mut self, one: usize, other: usize) {
        let (one, other) = (self.lowest[one], self.lowest[other]);
        let (low, high) = (one.min(other), one.max(other));
        for lowest in self.lowest.iter_mut().filter(|it| **it == high) {
            *lowest = low;
        }
    }
}

/// The parts of a case, by their lowest nodes; stations without arcs come last, each as a part.
pub fn parts(case: &Case) -> Vec<Part> {
    let mut sets = Sets {
        lowest: (0..case.nodes.len()).collect(),
    };
    for station in 0..case.stations.len() {
        let nodes = case.station_nodes(station);
        for pair in nodes.windows(2) {
            sets.join(pair[0], pair[1]);
        }
    }
    let body_of = sets.lowest.clone();
    for arc in &case.arcs {
        sets.join(arc.from, arc.to);
    }
    let mut parts = Vec::new();
    for first in 0..case.nodes.len() {
        if sets.lowest[first] == first {
            parts.push(part(case, first, &sets.lowest, &body_of));
        }
    }
    for station in 0..case.stations.len() {
        if case.station_arcs(station).is_empty() {
            parts.push(Part {
                bodies: vec![Body {
                    stations: vec![station],
                    ..Body::default()
                }],
                ..Part::default()
            });
        }
    }
    parts
}

/// The part whose lowest node is this one, by the lowest node of each node's part and body.
fn part(case: &Case, first: usize, part_of: &[usize], body_of: &[usize]) -> Part {
    let mut part = Part::default();
    for lowest in (0..case.nodes.len()).filter(|&node| part_of[node] == first) {
        if body_of[lowest] == lowest {
            part.bodies.push(body(case, lowest, body_of));
        }
    }
    let between = |index: &usize| {
        let arc = &case.arcs[*index];
        part_of[arc.from] == first && body_of[arc.from] != body_of[arc.to]
    };
    part.arcs = (0..case.arcs.len()).filter(between).collect();
    part
}

fn body(case: &Case, lowest: usize, body_of: &[usize]) -> Body {
    let holds = |node: usize| body_of[node] == lowest;
    let inner = |index: &usize| holds(case.arcs[*index].from) && holds(case.arcs[*index].to);
    let own = |station: &usize| case.station_nodes(*station).iter().any(|&node| holds(node));
    Body {
        nodes: (0..case.nodes.len()).filter(|&node| holds(node)).collect(),
        arcs: (0..case.arcs.len()).filter(inner).collect(),
        stations: (0..case.stations.len()).filter(own).collect(),
    }
}
