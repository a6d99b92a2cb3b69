//! A whole case.

use super::rows::{Arc, Node, Rows, Station, several};
use crate::layout::{CaseLayout, Layout};
use crate::words;

pub struct Case {
    pub mass_tolerance: i64,
    pub pressure_tolerance: i64,
    /// Time 0 first, then the times of steps 1 to k.
    pub times: Vec<i64>,
    pub nodes: Vec<Node>,
    pub arcs: Vec<Arc>,
    pub stations: Vec<Station>,
}

impl Case {
    /// The rows of a case list; none where it is not whole or names an item that is not there.
    pub fn of(list: &[i64]) -> Option<Case> {
        if !is_whole(list) {
            return None;
        }
        let mut rows = Rows { list };
        let [_, nodes, arcs, stations, steps, mass, pressure] = rows.take()?;
        let mut times = vec![0];
        for _ in 0..steps {
            times.push(rows.one()?);
        }
        let case = Case {
            mass_tolerance: mass,
            pressure_tolerance: pressure,
            times,
            nodes: several(nodes, || Node::of(&mut rows, steps))?,
            arcs: several(arcs, || Arc::of(&mut rows))?,
            stations: several(stations, || Station::of(&mut rows))?,
        };
        case.names_its_items().then_some(case)
    }

    fn names_its_items(&self) -> bool {
        self.arcs.iter().all(|arc| {
            let ends = arc.from < self.nodes.len() && arc.to < self.nodes.len();
            ends && arc.station().is_none_or(|it| it < self.stations.len())
        })
    }

    pub fn steps(&self) -> usize {
        self.times.len() - 1
    }

    /// dt of a step, 0 where there is no such step.
    pub fn span(&self, step: usize) -> i128 {
        match self.times.get(step.wrapping_sub(1)..=step) {
            Some([before, after]) => i128::from(*after) - i128::from(*before),
            _ => 0,
        }
    }

    /// A station's artificial arcs, in arc order.
    pub fn station_arcs(&self, station: usize) -> Vec<usize> {
        (0..self.arcs.len())
            .filter(|&arc| self.arcs[arc].station() == Some(station))
            .collect()
    }

    /// The ends of a station's artificial arcs, lowest first.
    pub fn station_nodes(&self, station: usize) -> Vec<usize> {
        let ends = |node: usize| {
            let at = |arc: &Arc| arc.from == node || arc.to == node;
            self.arcs
                .iter()
                .any(|arc| arc.station() == Some(station) && at(arc))
        };
        (0..self.nodes.len()).filter(|&node| ends(node)).collect()
    }

    /// The station's nodes that also end an arc of kind 0 to 2.
    pub fn fence(&self, station: usize) -> Vec<usize> {
        let ordinary = |node: &usize| {
            self.arcs
                .iter()
                .any(|arc| arc.station().is_none() && (arc.from == *node || arc.to == *node))
        };
        let mut nodes = self.station_nodes(station);
        nodes.retain(ordinary);
        nodes
    }

    pub fn span_words(&self, step: usize) -> String {
        let time = |step: usize| self.times.get(step).copied().unwrap_or(0);
        format!("{} s to {} s", time(step.saturating_sub(1)), time(step))
    }

    pub fn node_words(&self, node: usize) -> String {
        let kind = self.nodes.get(node).map_or(-1, |node| node.kind);
        format!("node {node} ({})", words::node_kind(kind))
    }

    /// Kind, number and ends of an arc, and its station if it has one.
    pub fn arc_words(&self, index: usize) -> String {
        let Some(arc) = self.arcs.get(index) else {
            return format!("arc {index}");
        };
        let kind = words::arc_kind(arc.kind);
        let station = match arc.station() {
            Some(station) => format!(", station {station}"),
            None => String::new(),
        };
        format!("{kind} {index} (node {} to {}{station})", arc.from, arc.to)
    }
}

fn is_whole(list: &[i64]) -> bool {
    let mut layout = CaseLayout::default();
    for &number in list {
        if layout.due().is_none() {
            return false;
        }
        layout.take(number);
    }
    layout.due().is_none()
}
