//! What stands where in a plan list.

use super::{Field, Layout, Part, field, of_form};

const PLAN_HEAD: [&str; 2] = ["version", "steps"];
const NODE_ROW: [&str; 6] = ["p", "d", "s+", "s-", "u+", "u-"];
const ARC_ROW: [&str; 4] = ["a", "b", "setting", "machines"];
const STATION_ROW: [&str; 2] = ["direction", "state"];

/// How many nodes, arcs and stations each step of a plan has rows for.
#[derive(Clone, Copy, Debug, Default, PartialEq, Eq)]
pub struct Counts {
    pub nodes: usize,
    pub arcs: usize,
    pub stations: usize,
}

impl Counts {
    /// As the case's head has them.
    pub fn of_case(case: &[i64]) -> Self {
        let count = |at: usize| {
            let number = case.get(at).copied().unwrap_or(0);
            usize::try_from(number).unwrap_or(0)
        };
        Counts {
            nodes: count(1),
            arcs: count(2),
            stations: count(3),
        }
    }

    /// How many numbers a step takes.
    pub fn width(&self) -> usize {
        let nodes = self.nodes.saturating_mul(NODE_ROW.len());
        let arcs = self.arcs.saturating_mul(ARC_ROW.len());
        let stations = self.stations.saturating_mul(STATION_ROW.len());
        nodes.saturating_add(arcs).saturating_add(stations)
    }
}

pub struct PlanLayout {
    counts: Counts,
    steps: usize,
    /// The step that is being read, 0 for the head, and the field in it.
    step: usize,
    at: usize,
}

impl PlanLayout {
    pub fn new(counts: Counts) -> Self {
        PlanLayout {
            counts,
            steps: 0,
            step: 0,
            at: 0,
        }
    }
}

impl Layout for PlanLayout {
    fn due(&self) -> Option<Field> {
        if self.step == 0 {
            return Some(field(Part::Head, PLAN_HEAD[self.at]));
        }
        if self.step > self.steps || self.counts.width() == 0 {
            return None;
        }
        let arcs_at = self.counts.nodes.saturating_mul(NODE_ROW.len());
        let arcs_len = self.counts.arcs.saturating_mul(ARC_ROW.len());
        let found = if self.at < arcs_at {
            let part = Part::Node(self.at / NODE_ROW.len());
            field(part, NODE_ROW[self.at % NODE_ROW.len()])
        } else if self.at - arcs_at < arcs_len {
            let at = self.at - arcs_at;
            let name = ARC_ROW[at % ARC_ROW.len()];
            of_form(Part::Arc(at / ARC_ROW.len()), name, name == "machines")
        } else {
            let at = self.at - arcs_at - arcs_len;
            let part = Part::Station(at / STATION_ROW.len());
            field(part, STATION_ROW[at % STATION_ROW.len()])
        };
        Some(Field {
            step: Some(self.step),
            ..found
        })
    }

    fn take(&mut self, number: i64) {
        if self.step == 0 && self.at == 1 {
            self.steps = usize::try_from(number).unwrap_or(0);
        }
        let width = match self.step {
            0 => PLAN_HEAD.len(),
            _ => self.counts.width(),
        };
        self.at += 1;
        if self.at >= width {
            self.at = 0;
            self.step += 1;
        }
    }
}
