//! A plan beside its case.

use super::Case;
use crate::layout::Counts;

/// A plan list beside its case. A number that is not there reads as 0.
pub struct Plan<'a> {
    pub case: &'a Case,
    list: &'a [i64],
    counts: Counts,
}

#[derive(Clone, Copy)]
pub struct NodeRow {
    pub p: i64,
    pub d: i64,
    pub s_plus: i64,
    pub s_minus: i64,
    pub u_plus: i64,
    pub u_minus: i64,
}

#[derive(Clone, Copy)]
pub struct ArcRow {
    pub a: i64,
    pub b: i64,
    pub setting: i64,
    pub machines: i64,
}

#[derive(Clone, Copy)]
pub struct StationRow {
    pub direction: i64,
    pub state: i64,
}

impl<'a> Plan<'a> {
    pub fn new(case: &'a Case, list: &'a [i64]) -> Self {
        let counts = Counts {
            nodes: case.nodes.len(),
            arcs: case.arcs.len(),
            stations: case.stations.len(),
        };
        Plan { case, list, counts }
    }

    /// A number of a step from 1 on.
    fn number(&self, step: usize, at: usize) -> i64 {
        let start = 2 + step.saturating_sub(1) * self.counts.width();
        self.list.get(start + at).copied().unwrap_or(0)
    }

    pub fn node(&self, step: usize, node: usize) -> NodeRow {
        let at = |field| self.number(step, 6 * node + field);
        NodeRow {
            p: at(0),
            d: at(1),
            s_plus: at(2),
            s_minus: at(3),
            u_plus: at(4),
            u_minus: at(5),
        }
    }

    pub fn arc(&self, step: usize, arc: usize) -> ArcRow {
        let at = |field| self.number(step, 6 * self.counts.nodes + 4 * arc + field);
        ArcRow {
            a: at(0),
            b: at(1),
            setting: at(2),
            machines: at(3),
        }
    }

    pub fn station(&self, step: usize, station: usize) -> StationRow {
        let rows_before = 6 * self.counts.nodes + 4 * self.counts.arcs;
        let at = |field| self.number(step, rows_before + 2 * station + field);
        StationRow {
            direction: at(0),
            state: at(1),
        }
    }

    /// Before step 1 a node has p0.
    pub fn pressure(&self, step: usize, node: usize) -> i64 {
        match step {
            0 => self.case.nodes.get(node).map_or(0, |node| node.p0),
            _ => self.node(step, node).p,
        }
    }
}
