//! A branch: a small network beside an accepted pair, joined to nothing of it. Its nodes, arcs and stations come last.

use crate::model::{
    Arc, ArcRow, C, INNER, MOST_FLOW, MOST_PRESSURE, Node, NodeRow, PIPE, Pair, SHORTCUT, STATION,
    Station, StationRow, Step,
};

use super::super::refused;
use super::turned::{turned, turned_expect};
use super::{Both, Edge, Expect};

pub struct Branch {
    pub pair: Pair,
}

impl Branch {
    /// Beside the pair, or with its steps and tolerances alone where the pair leaves no room.
    pub fn beside(pair: &Pair, nodes: usize, arcs: usize, stations: usize) -> Branch {
        let case = &pair.case;
        let fits = case.nodes.len() + nodes <= 60
            && case.arcs.len() + arcs <= 120
            && case.stations.len() + stations <= 8;
        if fits {
            return Branch { pair: pair.clone() };
        }
        let mut alone = Branch::alone(&case.times, case.mass_tolerance);
        alone.pair.case.pressure_tolerance = case.pressure_tolerance;
        alone
    }

    /// Beside nothing.
    pub fn alone(times: &[i64], mass_tolerance: i64) -> Branch {
        let mut pair = Pair::default();
        pair.case.times = times.to_vec();
        pair.case.mass_tolerance = mass_tolerance;
        pair.plan.steps = vec![Step::default(); times.len()];
        Branch { pair }
    }

    pub fn steps(&self) -> usize {
        self.pair.steps()
    }

    /// A node with the widest bounds, which has this pressure all along.
    pub fn node(&mut self, kind: i64, p: i64) -> usize {
        self.pair.case.nodes.push(Node {
            kind,
            p0: p,
            low: 0,
            high: MOST_PRESSURE,
            actlow: 0,
            acthigh: MOST_PRESSURE,
            demands: vec![0; self.steps()],
        });
        for step in &mut self.pair.plan.steps {
            step.nodes.push(NodeRow {
                p,
                ..NodeRow::default()
            });
        }
        self.pair.case.nodes.len() - 1
    }

    pub fn inner(&mut self, p: i64) -> usize {
        self.node(INNER, p)
    }

    /// What the node is to give is what it gives.
    pub fn supply(&mut self, node: usize, d: i64) {
        self.pair.case.nodes[node].demands.fill(d);
        for step in &mut self.pair.plan.steps {
            step.nodes[node].d = d;
        }
    }

    /// An arc without flow, shut or off; an artificial one goes both ways and is the last station's.
    pub fn arc(&mut self, kind: i64, from: usize, to: usize) -> usize {
        let mut more = [0; 7];
        if kind == PIPE {
            more[C] = 1;
        }
        if kind >= SHORTCUT {
            more[STATION] = self.pair.case.stations.len() as i64 - 1;
            more[crate::model::BOTH_WAYS] = 1;
        }
        self.pair.case.arcs.push(Arc {
            kind,
            from,
            to,
            qmax: MOST_FLOW,
            more,
        });
        for step in &mut self.pair.plan.steps {
            step.arcs.push(ArcRow::default());
        }
        self.pair.case.arcs.len() - 1
    }

    /// The arc's row in every step.
    pub fn run(&mut self, arc: usize, row: ArcRow) {
        for step in &mut self.pair.plan.steps {
            step.arcs[arc] = row;
        }
    }

    /// A station with one direction and one state, which ask for nothing.
    pub fn station(&mut self, machines: &[[i64; 2]]) -> usize {
        self.pair.case.stations.push(Station {
            direction_at_0: 0,
            state_at_0: 0,
            directions: vec![[0; 3]],
            states: vec![[1, 0, 0, 0]],
            machines: machines.to_vec(),
        });
        for step in &mut self.pair.plan.steps {
            step.stations.push(StationRow::default());
        }
        self.pair.case.stations.len() - 1
    }

    pub fn last_arc(&self) -> usize {
        self.pair.case.arcs.len() - 1
    }

    pub fn last_station(&self) -> usize {
        self.pair.case.stations.len() - 1
    }

    /// The edge and its turned form.
    pub fn answered(&self, expect: Expect) -> Both {
        let edge = |pair: &Pair, expect: Expect| Edge {
            case: pair.case.list(),
            plan: pair.plan.list(),
            expect,
        };
        [
            edge(&self.pair, expect),
            edge(&turned(&self.pair), turned_expect(expect, &self.pair)),
        ]
    }

    pub fn accepted(&self) -> Both {
        self.answered(Expect::Accepted)
    }

    pub fn refused(&self, number: u8, step: usize, place: usize) -> Both {
        self.answered(Expect::Refused(refused(number, step, place)))
    }
}
