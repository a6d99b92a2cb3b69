//! The fields of a case list: the questions 10 to 12.

use std::ops::RangeInclusive;

use super::{
    Arc, Artificial, Case, Direction, Kind, MOST_FLOW, Machine, Machinery, Node, NodeKind, Pipe,
    State, Station,
};
use crate::verdict::{Answer, ask};

const MOST_PRESSURE: i64 = 200_000;
const MOST_SLOPE: i64 = 200_000;
const MOST_WEIGHT: i64 = 1_000_000;
const MOST_SPAN: i64 = 86_400;
const MOST_MACHINES: i64 = 12;
const NODE_SETS: i64 = (1 << 60) - 1;
const ARC_SETS: i64 = (1 << 30) - 1;
const MACHINE_SETS: i64 = (1 << 12) - 1;

/// The fields of a case list, taken one after the other.
struct Fields<'a> {
    list: &'a [i64],
    next: usize,
}

impl Fields<'_> {
    fn take(&mut self, range: RangeInclusive<i64>) -> Answer<i64> {
        let field = rule_10_field_is_there(self.list, self.next)?;
        rule_11_field_is_in_range(field, &range, self.next)?;
        self.next += 1;
        Ok(field)
    }

    /// A field that counts or names items. The range keeps it small and not negative.
    fn take_index(&mut self, range: RangeInclusive<i64>) -> Answer<usize> {
        Ok(self.take(range)? as usize)
    }

    fn take_zeros(&mut self, count: usize) -> Answer<()> {
        for _ in 0..count {
            self.take(0..=0)?;
        }
        Ok(())
    }
}

fn rule_10_field_is_there(list: &[i64], place: usize) -> Answer<i64> {
    let field = list.get(place).copied();
    ask(10, field.is_some(), 0, place)?;
    Ok(field.unwrap_or(0))
}

fn rule_11_field_is_in_range(field: i64, range: &RangeInclusive<i64>, place: usize) -> Answer<()> {
    ask(11, range.contains(&field), 0, place)
}

fn rule_12_nothing_is_left_over(fields: &Fields) -> Answer<()> {
    ask(12, fields.next == fields.list.len(), 0, fields.next)
}

/// Reads a whole case list, from its first field to question 12.
pub(super) fn read(list: &[i64]) -> Answer<Case> {
    let mut fields = Fields { list, next: 0 };
    let case = read_case(&mut fields)?;
    rule_12_nothing_is_left_over(&fields)?;
    Ok(case)
}

fn read_case(fields: &mut Fields) -> Answer<Case> {
    fields.take(1..=1)?;
    let nodes = fields.take(1..=60)?;
    let arcs = fields.take(0..=120)?;
    let stations = fields.take(0..=8)?;
    let steps = fields.take(1..=48)?;
    Ok(Case {
        mass_tolerance: fields.take(0..=1_000_000)?,
        pressure_tolerance: fields.take(0..=1_000)?,
        spans: read_spans(fields, steps)?,
        nodes: rows(nodes, || read_node(fields, steps))?,
        arcs: rows(arcs, || read_arc(fields, nodes, stations))?,
        stations: rows(stations, || read_station(fields))?,
    })
}

fn rows<T>(count: i64, mut row: impl FnMut() -> Answer<T>) -> Answer<Vec<T>> {
    (0..count).map(|_| row()).collect()
}

/// The times of steps 1 to k, as differences.
fn read_spans(fields: &mut Fields, steps: i64) -> Answer<Vec<i64>> {
    let mut before = 0;
    rows(steps, || {
        let time = fields.take(before + 1..=before + MOST_SPAN)?;
        let span = time - before;
        before = time;
        Ok(span)
    })
}

fn read_node(fields: &mut Fields, steps: i64) -> Answer<Node> {
    let (kind, demands) = match fields.take(0..=2)? {
        0 => (NodeKind::Inner, 0..=0),
        1 => (NodeKind::Source, 0..=MOST_FLOW),
        _ => (NodeKind::Sink, -MOST_FLOW..=0),
    };
    let p0 = fields.take(0..=MOST_PRESSURE)?;
    let low = fields.take(0..=MOST_PRESSURE)?;
    let high = fields.take(0..=MOST_PRESSURE)?;
    // A bound between two fields counts for the later one.
    let actlow = fields.take(low..=MOST_PRESSURE)?;
    let acthigh = fields.take(actlow..=high)?;
    Ok(Node {
        kind,
        p0,
        low,
        high,
        actlow,
        acthigh,
        demands: rows(steps, || fields.take(demands.clone()))?,
        leaving: Vec::new(),
        entering: Vec::new(),
    })
}

fn read_arc(fields: &mut Fields, nodes: i64, stations: i64) -> Answer<Arc> {
    let kind = fields.take(0..=6)?;
    let from = fields.take_index(0..=nodes - 1)?;
    let to = fields.take_index(0..=nodes - 1)?;
    let qmax = fields.take(0..=MOST_FLOW)?;
    let kind = read_seven_more(fields, kind, stations)?;
    Ok(Arc {
        from,
        to,
        qmax,
        kind,
    })
}

fn read_seven_more(fields: &mut Fields, kind: i64, stations: i64) -> Answer<Kind> {
    Ok(match kind {
        0 => {
            fields.take_zeros(7)?;
            Kind::Valve
        }
        1 => {
            fields.take_zeros(7)?;
            Kind::Regulator
        }
        2 => Kind::Pipe(read_pipe(fields)?),
        3 => {
            let artificial = read_artificial(fields, stations, 1..=1)?;
            fields.take_zeros(3)?;
            Kind::Shortcut(artificial)
        }
        4 => {
            let artificial = read_artificial(fields, stations, 0..=1)?;
            fields.take_zeros(3)?;
            Kind::Regulating(artificial)
        }
        5 => Kind::Compressor(
            read_artificial(fields, stations, 0..=1)?,
            read_machinery(fields)?,
        ),
        _ => Kind::Combined(
            read_artificial(fields, stations, 0..=1)?,
            read_machinery(fields)?,
        ),
    })
}

fn read_pipe(fields: &mut Fields) -> Answer<Pipe> {
    let pipe = Pipe {
        c: fields.take(1..=100_000_000)?,
        f: fields.take(0..=10_000_000)?,
        g: fields.take(0..=10_000_000)?,
        h: fields.take(-MOST_SLOPE..=MOST_SLOPE)?,
    };
    fields.take_zeros(3)?;
    Ok(pipe)
}

fn read_artificial(
    fields: &mut Fields,
    stations: i64,
    both_ways: RangeInclusive<i64>,
) -> Answer<Artificial> {
    Ok(Artificial {
        station: fields.take_index(0..=stations - 1)?,
        both_ways: fields.take(both_ways)? == 1,
        weight: fields.take(0..=MOST_WEIGHT)?,
        active_at_0: fields.take(0..=1)? == 1,
    })
}

fn read_machinery(fields: &mut Fields) -> Answer<Machinery> {
    Ok(Machinery {
        set: fields.take(0..=MACHINE_SETS)?,
        most: fields.take(0..=MOST_MACHINES)?,
        out_bound: fields.take(0..=MOST_PRESSURE)?,
    })
}

fn read_station(fields: &mut Fields) -> Answer<Station> {
    let directions = fields.take(1..=8)?;
    let states = fields.take(1..=16)?;
    let machines = fields.take(0..=MOST_MACHINES)?;
    Ok(Station {
        direction_at_0: fields.take_index(0..=directions - 1)?,
        state_at_0: fields.take_index(0..=states - 1)?,
        directions: rows(directions, || read_direction(fields))?,
        states: rows(states, || read_state(fields, directions))?,
        machines: rows(machines, || read_machine(fields))?,
        arcs: Vec::new(),
        fence: Vec::new(),
    })
}

fn read_direction(fields: &mut Fields) -> Answer<Direction> {
    Ok(Direction {
        entry: fields.take(0..=NODE_SETS)?,
        exit: fields.take(0..=NODE_SETS)?,
        weight: fields.take(0..=MOST_WEIGHT)?,
    })
}

fn read_state(fields: &mut Fields, directions: i64) -> Answer<State> {
    Ok(State {
        directions: fields.take(0..=(1 << directions) - 1)?,
        on: fields.take(0..=ARC_SETS)?,
        off: fields.take(0..=ARC_SETS)?,
        weight: fields.take(0..=MOST_WEIGHT)?,
    })
}

fn read_machine(fields: &mut Fields) -> Answer<Machine> {
    Ok(Machine {
        flow: fields.take(0..=MOST_FLOW)?,
        ratio: fields.take(1_001..=10_000)?,
    })
}
