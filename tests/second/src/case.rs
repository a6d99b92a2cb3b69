//! The case: its rows, and the questions 13 to 17; its fields, with 10 to 12, are in `fields`.

mod fields;

use crate::verdict::{Answer, ask};

/// The most of a flow, a demand or a demand slack, in g/s.
pub const MOST_FLOW: i64 = 10_000_000;
const MOST_STATION_ARCS: usize = 30;

/// A case that answered every question from 10 to 17 with "yes".
#[derive(Clone, Debug)]
pub struct Case {
    /// E, in g.
    pub mass_tolerance: i64,
    /// H, in mbar.
    pub pressure_tolerance: i64,
    /// dt of each step, step 1 first.
    pub spans: Vec<i64>,
    pub nodes: Vec<Node>,
    pub arcs: Vec<Arc>,
    pub stations: Vec<Station>,
}

#[derive(Clone, Copy, Debug, PartialEq, Eq)]
pub enum NodeKind {
    Inner,
    Source,
    Sink,
}

#[derive(Clone, Debug)]
pub struct Node {
    pub kind: NodeKind,
    pub p0: i64,
    pub low: i64,
    pub high: i64,
    pub actlow: i64,
    pub acthigh: i64,
    /// D of each step, step 1 first.
    pub demands: Vec<i64>,
    /// The arcs that leave the node, and those that enter it.
    pub leaving: Vec<usize>,
    pub entering: Vec<usize>,
}

#[derive(Clone, Debug)]
pub struct Arc {
    pub from: usize,
    pub to: usize,
    pub qmax: i64,
    pub kind: Kind,
}

#[derive(Clone, Debug)]
pub enum Kind {
    Valve,
    Regulator,
    Pipe(Pipe),
    Shortcut(Artificial),
    Regulating(Artificial),
    Compressor(Artificial, Machinery),
    Combined(Artificial, Machinery),
}

/// Storage c, friction f and g at from and to, slope h.
#[derive(Clone, Debug)]
pub struct Pipe {
    pub c: i64,
    pub f: i64,
    pub g: i64,
    pub h: i64,
}

#[derive(Clone, Debug)]
pub struct Artificial {
    pub station: usize,
    pub both_ways: bool,
    pub weight: i64,
    pub active_at_0: bool,
}

#[derive(Clone, Debug)]
pub struct Machinery {
    pub set: i64,
    pub most: i64,
    /// As written: 0 leaves the bound to 26.
    pub out_bound: i64,
}

#[derive(Clone, Debug)]
pub struct Station {
    pub direction_at_0: usize,
    pub state_at_0: usize,
    pub directions: Vec<Direction>,
    pub states: Vec<State>,
    pub machines: Vec<Machine>,
    /// Its artificial arcs, in arc order.
    pub arcs: Vec<usize>,
    /// Its fence nodes.
    pub fence: Vec<usize>,
}

#[derive(Clone, Debug)]
pub struct Direction {
    pub entry: i64,
    pub exit: i64,
    pub weight: i64,
}

#[derive(Clone, Debug)]
pub struct State {
    pub directions: i64,
    pub on: i64,
    pub off: i64,
    pub weight: i64,
}

#[derive(Clone, Debug)]
pub struct Machine {
    /// Q, in g/s.
    pub flow: i64,
    /// R, in thousandths.
    pub ratio: i64,
}

impl Arc {
    pub fn pipe(&self) -> Option<&Pipe> {
        match &self.kind {
            Kind::Pipe(pipe) => Some(pipe),
            _ => None,
        }
    }

    pub fn artificial(&self) -> Option<&Artificial> {
        match &self.kind {
            Kind::Valve | Kind::Regulator | Kind::Pipe(_) => None,
            Kind::Shortcut(artificial)
            | Kind::Regulating(artificial)
            | Kind::Compressor(artificial, _)
            | Kind::Combined(artificial, _) => Some(artificial),
        }
    }

    pub fn machinery(&self) -> Option<&Machinery> {
        match &self.kind {
            Kind::Compressor(_, machinery) | Kind::Combined(_, machinery) => Some(machinery),
            _ => None,
        }
    }
}

/// Is the item in the set?
pub fn holds(set: i64, item: usize) -> bool {
    item < 63 && set >> item & 1 == 1
}

/// Judges a case list from its first field to question 17.
pub fn judge(list: &[i64]) -> Answer<Case> {
    let mut case = fields::read(list)?;
    for arc in 0..case.arcs.len() {
        ask(13, rule_13_ends_differ(&case, arc), 0, arc)?;
    }
    join(&mut case);
    for node in 0..case.nodes.len() {
        ask(14, rule_14_in_one_station_at_most(&case, node), 0, node)?;
    }
    for station in 0..case.stations.len() {
        ask(15, rule_15_at_most_30_arcs(&case, station), 0, station)?;
    }
    for station in 0..case.stations.len() {
        ask(16, rule_16_directions_at_fence(&case, station), 0, station)?;
    }
    for station in 0..case.stations.len() {
        ask(17, rule_17_states_and_machines(&case, station), 0, station)?;
    }
    Ok(case)
}

/// Joins nodes, arcs and stations: who ends where, which nodes are fence nodes.
fn join(case: &mut Case) {
    let mut ordinary: i64 = 0;
    let mut inside = vec![0_i64; case.stations.len()];
    for (index, arc) in case.arcs.iter().enumerate() {
        case.nodes[arc.from].leaving.push(index);
        case.nodes[arc.to].entering.push(index);
        let ends = 1 << arc.from | 1 << arc.to;
        match arc.artificial() {
            None => ordinary |= ends,
            Some(artificial) => {
                inside[artificial.station] |= ends;
                case.stations[artificial.station].arcs.push(index);
            }
        }
    }
    for (station, nodes) in case.stations.iter_mut().zip(inside) {
        station.fence = (0..case.nodes.len())
            .filter(|&node| holds(nodes & ordinary, node))
            .collect();
    }
}

fn rule_13_ends_differ(case: &Case, arc: usize) -> bool {
    case.arcs[arc].from != case.arcs[arc].to
}

fn rule_14_in_one_station_at_most(case: &Case, node: usize) -> bool {
    let node = &case.nodes[node];
    let mut stations = node
        .leaving
        .iter()
        .chain(&node.entering)
        .filter_map(|&arc| case.arcs[arc].artificial())
        .map(|artificial| artificial.station);
    match stations.next() {
        None => true,
        Some(first) => stations.all(|other| other == first),
    }
}

fn rule_15_at_most_30_arcs(case: &Case, station: usize) -> bool {
    case.stations[station].arcs.len() <= MOST_STATION_ARCS
}

fn rule_16_directions_at_fence(case: &Case, station: usize) -> bool {
    let station = &case.stations[station];
    let fence: i64 = station.fence.iter().map(|&node| 1 << node).sum();
    station.directions.iter().all(|direction| {
        direction.entry & direction.exit == 0 && (direction.entry | direction.exit) & !fence == 0
    })
}

fn rule_17_states_and_machines(case: &Case, station: usize) -> bool {
    let station = &case.stations[station];
    let its_arcs = (1 << station.arcs.len()) - 1;
    let its_machines = (1 << station.machines.len()) - 1;
    let states = station
        .states
        .iter()
        .all(|state| state.on & state.off == 0 && (state.on | state.off) & !its_arcs == 0);
    let machines = station
        .arcs
        .iter()
        .filter_map(|&arc| case.arcs[arc].machinery())
        .all(|machinery| machinery.set & !its_machines == 0);
    states && machines && step_0_obeys(case, station)
}

fn step_0_obeys(case: &Case, station: &Station) -> bool {
    let active = |arc: usize| {
        case.arcs[arc]
            .artificial()
            .is_some_and(|artificial| artificial.active_at_0)
    };
    obeys(station, station.state_at_0, active)
}

/// Are all arcs of the state's on set active, and none of its off set?
pub fn obeys(station: &Station, state: usize, active: impl Fn(usize) -> bool) -> bool {
    let state = &station.states[state];
    station.arcs.iter().enumerate().all(|(bit, &arc)| {
        let is_active = active(arc);
        (!holds(state.on, bit) || is_active) && (!holds(state.off, bit) || !is_active)
    })
}
