//! What stands where in a case list.

use super::{Field, Form, Layout, Part, field, of_form};

const HEAD: [&str; 7] = [
    "edition",
    "nodes",
    "arcs",
    "stations",
    "steps",
    "mass-tolerance",
    "pressure-tolerance",
];
const NODE: [&str; 6] = ["kind", "p0", "low", "high", "actlow", "acthigh"];
const ARC: [&str; 4] = ["kind", "from", "to", "qmax"];
const PIPE: [&str; 4] = ["c", "f", "g", "h"];
const ARTIFICIAL: [&str; 4] = ["station", "both-ways", "weight", "active-at-0"];
const MACHINERY: [&str; 3] = ["machines", "most-machines", "out-bound"];
const STATION: [&str; 5] = [
    "directions",
    "states",
    "machines",
    "direction-at-0",
    "state-at-0",
];
const DIRECTION: [&str; 3] = ["entry", "exit", "weight"];
const STATE: [&str; 4] = ["directions", "on", "off", "weight"];
const MACHINE: [&str; 2] = ["flow", "ratio"];
/// How many fields an arc row has after the first four.
const MORE: usize = 7;

/// Where a case list has come to: the part, and the field in it.
pub struct CaseLayout {
    nodes: usize,
    arcs: usize,
    stations: usize,
    steps: usize,
    /// Kind of the arc that is being read.
    kind: i64,
    /// Directions, states and machines of the station that is being read.
    rows: [usize; 3],
    /// None where the case is whole.
    part: Option<Part>,
    at: usize,
}

impl Default for CaseLayout {
    fn default() -> Self {
        CaseLayout {
            nodes: 0,
            arcs: 0,
            stations: 0,
            steps: 0,
            kind: 0,
            rows: [0; 3],
            part: Some(Part::Head),
            at: 0,
        }
    }
}

impl CaseLayout {
    /// How many fields the part has.
    fn width(&self, part: Part) -> usize {
        match part {
            Part::Head => HEAD.len(),
            Part::Times => self.steps,
            Part::Node(_) => NODE.len().saturating_add(self.steps),
            Part::Arc(_) => ARC.len() + MORE,
            Part::Station(_) => STATION.len(),
            Part::Direction(..) => DIRECTION.len(),
            Part::State(..) => STATE.len(),
            Part::Machine(..) => MACHINE.len(),
            Part::Row(_) => 0, // no case has one
        }
    }

    /// The part after this one; none after the last.
    fn following(&self, part: Part) -> Option<Part> {
        match part {
            Part::Head if self.steps > 0 => Some(Part::Times),
            Part::Head | Part::Times => self.node(0),
            Part::Node(node) => self.node(node + 1),
            Part::Arc(arc) => self.arc(arc + 1),
            Part::Station(station) => self.direction(station, 0),
            Part::Direction(station, row) => self.direction(station, row + 1),
            Part::State(station, row) => self.state(station, row + 1),
            Part::Machine(station, row) => self.machine(station, row + 1),
            Part::Row(_) => None,
        }
    }

    // Each gives the item, or what follows the last of its kind.

    fn node(&self, node: usize) -> Option<Part> {
        match node < self.nodes {
            true => Some(Part::Node(node)),
            false => self.arc(0),
        }
    }

    fn arc(&self, arc: usize) -> Option<Part> {
        match arc < self.arcs {
            true => Some(Part::Arc(arc)),
            false => self.station(0),
        }
    }

    fn station(&self, station: usize) -> Option<Part> {
        (station < self.stations).then_some(Part::Station(station))
    }

    fn direction(&self, station: usize, row: usize) -> Option<Part> {
        match row < self.rows[0] {
            true => Some(Part::Direction(station, row)),
            false => self.state(station, 0),
        }
    }

    fn state(&self, station: usize, row: usize) -> Option<Part> {
        match row < self.rows[1] {
            true => Some(Part::State(station, row)),
            false => self.machine(station, 0),
        }
    }

    fn machine(&self, station: usize, row: usize) -> Option<Part> {
        match row < self.rows[2] {
            true => Some(Part::Machine(station, row)),
            false => self.station(station + 1),
        }
    }

    /// Keeps a number that later fields depend on.
    fn keep(&mut self, part: Part, number: i64) {
        let count = usize::try_from(number).unwrap_or(0);
        match (part, self.at) {
            (Part::Head, 1) => self.nodes = count,
            (Part::Head, 2) => self.arcs = count,
            (Part::Head, 3) => self.stations = count,
            (Part::Head, 4) => self.steps = count,
            (Part::Arc(_), 0) => self.kind = number,
            (Part::Station(_), row @ 0..3) => self.rows[row] = count,
            _ => {}
        }
    }
}

impl Layout for CaseLayout {
    fn due(&self) -> Option<Field> {
        let part = self.part?;
        let at = self.at;
        Some(match part {
            Part::Head => field(part, HEAD[at]),
            Part::Times => Field {
                step: Some(at + 1),
                ..field(part, "time")
            },
            Part::Node(_) => node_field(part, at),
            Part::Arc(_) => arc_field(part, at, self.kind),
            Part::Station(_) => field(part, STATION[at]),
            Part::Direction(..) => of_form(part, DIRECTION[at], [true, true, false][at]),
            Part::State(..) => of_form(part, STATE[at], [true, true, true, false][at]),
            Part::Machine(..) => field(part, MACHINE[at]),
            Part::Row(_) => return None,
        })
    }

    fn take(&mut self, number: i64) {
        let Some(part) = self.part else { return };
        self.keep(part, number);
        self.at += 1;
        if self.at >= self.width(part) {
            self.at = 0;
            self.part = self.following(part);
        }
    }
}

fn node_field(part: Part, at: usize) -> Field {
    match NODE.get(at) {
        Some(&"kind") => Field {
            form: Form::NodeKind,
            ..field(part, "kind")
        },
        Some(name) => field(part, name),
        None => Field {
            step: Some(at - NODE.len() + 1),
            ..field(part, "demand")
        },
    }
}

fn arc_field(part: Part, at: usize, kind: i64) -> Field {
    match ARC.get(at) {
        Some(&"kind") => Field {
            form: Form::ArcKind,
            ..field(part, "kind")
        },
        Some(name) => field(part, name),
        None => further_arc_field(part, at - ARC.len(), kind),
    }
}

/// One of the seven fields that depend on the arc's kind.
fn further_arc_field(part: Part, at: usize, kind: i64) -> Field {
    let zero = "zero";
    match kind {
        0 | 1 => field(part, zero),
        2 => field(part, PIPE.get(at).unwrap_or(&zero)),
        3 | 4 => field(part, ARTIFICIAL.get(at).unwrap_or(&zero)),
        5 | 6 => match ARTIFICIAL.get(at) {
            Some(name) => field(part, name),
            None => {
                let name = MACHINERY[at - ARTIFICIAL.len()];
                of_form(part, name, name == "machines")
            }
        },
        _ => field(part, "field"),
    }
}
