//! Cases and plans as rows, from which their lists are made.

mod fields;

pub use fields::Field;

pub const MOST_FLOW: i64 = 10_000_000;
pub const MOST_PRESSURE: i64 = 200_000;
pub const MOST_WEIGHT: i64 = 1_000_000;
pub const MOST_MASS_TOLERANCE: i64 = 1_000_000;
pub const MOST_PRESSURE_TOLERANCE: i64 = 1_000;

pub const INNER: i64 = 0;
pub const SOURCE: i64 = 1;
pub const SINK: i64 = 2;

pub const VALVE: i64 = 0;
pub const REGULATOR: i64 = 1;
pub const PIPE: i64 = 2;
pub const SHORTCUT: i64 = 3;
pub const REGULATING: i64 = 4;
pub const COMPRESSOR: i64 = 5;
pub const COMBINED: i64 = 6;

/// Places among an arc row's seven more fields, of a pipe and of an artificial arc.
pub const C: usize = 0;
pub const F: usize = 1;
pub const G: usize = 2;
pub const H: usize = 3;
pub const STATION: usize = 0;
pub const BOTH_WAYS: usize = 1;
pub const WEIGHT: usize = 2;
pub const ACTIVE: usize = 3;
pub const MACHINES: usize = 4;
pub const MOST: usize = 5;
pub const OUT_BOUND: usize = 6;

#[derive(Clone, Debug, Default)]
pub struct Case {
    pub mass_tolerance: i64,
    pub pressure_tolerance: i64,
    /// The times of steps 1 to k.
    pub times: Vec<i64>,
    pub nodes: Vec<Node>,
    pub arcs: Vec<Arc>,
    pub stations: Vec<Station>,
}

#[derive(Clone, Debug, Default)]
pub struct Node {
    pub kind: i64,
    pub p0: i64,
    pub low: i64,
    pub high: i64,
    pub actlow: i64,
    pub acthigh: i64,
    pub demands: Vec<i64>,
}

#[derive(Clone, Debug, Default)]
pub struct Arc {
    pub kind: i64,
    pub from: usize,
    pub to: usize,
    pub qmax: i64,
    pub more: [i64; 7],
}

#[derive(Clone, Debug, Default)]
pub struct Station {
    pub direction_at_0: usize,
    pub state_at_0: usize,
    /// Entry set, exit set, weight.
    pub directions: Vec<[i64; 3]>,
    /// Direction set, on set, off set, weight.
    pub states: Vec<[i64; 4]>,
    /// Flow Q, ratio R.
    pub machines: Vec<[i64; 2]>,
}

/// Places in a station's rows.
pub const ENTRY: usize = 0;
pub const EXIT: usize = 1;
pub const DIRECTIONS: usize = 0;
pub const ON: usize = 1;
pub const OFF: usize = 2;

#[derive(Clone, Debug, Default)]
pub struct Plan {
    /// Step 1 first.
    pub steps: Vec<Step>,
}

#[derive(Clone, Debug, Default)]
pub struct Step {
    pub nodes: Vec<NodeRow>,
    pub arcs: Vec<ArcRow>,
    pub stations: Vec<StationRow>,
}

#[derive(Clone, Copy, Debug, Default)]
pub struct NodeRow {
    pub p: i64,
    pub d: i64,
    pub s_plus: i64,
    pub s_minus: i64,
    pub u_plus: i64,
    pub u_minus: i64,
}

#[derive(Clone, Copy, Debug, Default)]
pub struct ArcRow {
    pub a: i64,
    pub b: i64,
    pub setting: i64,
    pub machines: i64,
}

#[derive(Clone, Copy, Debug, Default)]
pub struct StationRow {
    pub direction: i64,
    pub state: i64,
}

/// A case and a plan.
#[derive(Clone, Debug, Default)]
pub struct Pair {
    pub case: Case,
    pub plan: Plan,
}

/// The first "no" an input is to end in.
#[derive(Clone, Copy, Debug, PartialEq, Eq)]
pub struct Refused {
    pub number: u8,
    pub step: usize,
    pub place: usize,
}

/// Flow Q and ratio R of the machines that a set names.
pub fn named(machines: &[[i64; 2]], set: i64) -> impl Iterator<Item = [i64; 2]> {
    let named = move |(machine, _): &(usize, &[i64; 2])| set >> machine & 1 == 1;
    machines.iter().enumerate().filter(named).map(|(_, it)| *it)
}

impl Case {
    pub fn list(&self) -> Vec<i64> {
        self.fields().iter().map(|field| field.value).collect()
    }

    /// dt of a step.
    pub fn span(&self, step: usize) -> i64 {
        let before = if step == 1 { 0 } else { self.times[step - 2] };
        self.times[step - 1] - before
    }

    /// A station's artificial arcs, in arc order.
    pub fn station_arcs(&self, station: usize) -> Vec<usize> {
        (0..self.arcs.len())
            .filter(|&arc| self.arcs[arc].station() == Some(station))
            .collect()
    }

    /// Nodes that end an artificial arc of the station and an arc of kind 0 to 2.
    pub fn fence(&self, station: usize) -> Vec<usize> {
        let ends = |node: usize, wanted: Option<usize>| {
            self.arcs
                .iter()
                .any(|arc| (arc.from == node || arc.to == node) && arc.station() == wanted)
        };
        (0..self.nodes.len())
            .filter(|&node| ends(node, Some(station)) && ends(node, None))
            .collect()
    }
}

impl Arc {
    pub fn station(&self) -> Option<usize> {
        (self.kind >= SHORTCUT).then_some(self.more[STATION] as usize)
    }

    pub fn has_machines(&self) -> bool {
        self.kind >= COMPRESSOR
    }

    /// Is this setting of this arc compressing?
    pub fn compresses(&self, setting: i64) -> bool {
        (self.kind == COMPRESSOR && setting > 0) || (self.kind == COMBINED && setting > 2)
    }

    /// The in and the out end under this setting.
    pub fn ends(&self, setting: i64) -> (usize, usize) {
        if is_backward(setting) {
            (self.to, self.from)
        } else {
            (self.from, self.to)
        }
    }
}

/// Even settings above 0 are the backward ones.
pub fn is_backward(setting: i64) -> bool {
    setting > 0 && setting % 2 == 0
}

impl Plan {
    pub fn list(&self) -> Vec<i64> {
        let mut list = vec![1, self.steps.len() as i64];
        for step in &self.steps {
            for row in &step.nodes {
                list.extend([
                    row.p,
                    row.d,
                    row.s_plus,
                    row.s_minus,
                    row.u_plus,
                    row.u_minus,
                ]);
            }
            for row in &step.arcs {
                list.extend([row.a, row.b, row.setting, row.machines]);
            }
            for row in &step.stations {
                list.extend([row.direction, row.state]);
            }
        }
        list
    }
}

impl Pair {
    pub fn steps(&self) -> usize {
        self.plan.steps.len()
    }

    pub fn node(&self, step: usize, node: usize) -> NodeRow {
        self.plan.steps[step - 1].nodes[node]
    }

    pub fn node_mut(&mut self, step: usize, node: usize) -> &mut NodeRow {
        &mut self.plan.steps[step - 1].nodes[node]
    }

    pub fn arc(&self, step: usize, arc: usize) -> ArcRow {
        self.plan.steps[step - 1].arcs[arc]
    }

    pub fn arc_mut(&mut self, step: usize, arc: usize) -> &mut ArcRow {
        &mut self.plan.steps[step - 1].arcs[arc]
    }

    pub fn station(&self, step: usize, station: usize) -> StationRow {
        self.plan.steps[step - 1].stations[station]
    }

    pub fn station_mut(&mut self, step: usize, station: usize) -> &mut StationRow {
        &mut self.plan.steps[step - 1].stations[station]
    }

    /// Pressure of a node, p0 at step 0.
    pub fn pressure(&self, step: usize, node: usize) -> i64 {
        match step {
            0 => self.case.nodes[node].p0,
            _ => self.node(step, node).p,
        }
    }

    /// The arc's in and out end in this step.
    pub fn ends(&self, step: usize, arc: usize) -> (usize, usize) {
        self.case.arcs[arc].ends(self.arc(step, arc).setting)
    }

    /// The out pressure of an arc that compresses in this step.
    pub fn compressed(&self, step: usize, arc: usize) -> Option<i64> {
        let compresses = self.case.arcs[arc].compresses(self.arc(step, arc).setting);
        compresses.then(|| self.pressure(step, self.ends(step, arc).1))
    }

    /// What the arc's out bound means in this step: 0 stands for acthigh of the out end.
    pub fn out_bound(&self, step: usize, arc: usize) -> i64 {
        match self.case.arcs[arc].more[OUT_BOUND] {
            0 => self.case.nodes[self.ends(step, arc).1].acthigh,
            bound => bound,
        }
    }
}
