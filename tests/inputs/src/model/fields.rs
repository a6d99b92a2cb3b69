//! The fields of a case list in their order, each with the range it has there.

use std::ops::RangeInclusive;

use super::{
    Arc, Case, INNER, MOST_FLOW, MOST_MASS_TOLERANCE, MOST_PRESSURE, MOST_PRESSURE_TOLERANCE,
    MOST_WEIGHT, Node, PIPE, REGULATING, REGULATOR, SHORTCUT, SOURCE, Station, VALVE,
};

/// A field of the case list with its name and the range it has there.
#[derive(Clone, Debug)]
pub struct Field {
    pub name: &'static str,
    pub value: i64,
    pub range: RangeInclusive<i64>,
}

impl Case {
    /// Every field of the case list, in order.
    pub fn fields(&self) -> Vec<Field> {
        let mut fields = Fields::default();
        fields.put("edition", 1, 1..=1);
        fields.put("N", self.nodes.len() as i64, 1..=60);
        fields.put("A", self.arcs.len() as i64, 0..=120);
        fields.put("S", self.stations.len() as i64, 0..=8);
        fields.put("k", self.times.len() as i64, 1..=48);
        fields.put("E", self.mass_tolerance, 0..=MOST_MASS_TOLERANCE);
        fields.put("H", self.pressure_tolerance, 0..=MOST_PRESSURE_TOLERANCE);
        let mut before = 0;
        for &time in &self.times {
            fields.put("time", time, before + 1..=before + 86_400);
            before = time;
        }
        for node in &self.nodes {
            node.fields(&mut fields);
        }
        for arc in &self.arcs {
            arc.fields(self, &mut fields);
        }
        for station in &self.stations {
            station.fields(&mut fields);
        }
        fields.all
    }
}

#[derive(Default)]
struct Fields {
    all: Vec<Field>,
}

impl Fields {
    fn put(&mut self, name: &'static str, value: i64, range: RangeInclusive<i64>) {
        self.all.push(Field { name, value, range });
    }
}

impl Node {
    fn fields(&self, fields: &mut Fields) {
        fields.put("node kind", self.kind, 0..=2);
        fields.put("p0", self.p0, 0..=MOST_PRESSURE);
        fields.put("low", self.low, 0..=MOST_PRESSURE);
        fields.put("high", self.high, 0..=MOST_PRESSURE);
        fields.put("actlow", self.actlow, self.low..=MOST_PRESSURE);
        fields.put("acthigh", self.acthigh, self.actlow..=self.high);
        let (name, range) = match self.kind {
            INNER => ("demand of an inner node", 0..=0),
            SOURCE => ("demand of a source", 0..=MOST_FLOW),
            _ => ("demand of a sink", -MOST_FLOW..=0),
        };
        for &demand in &self.demands {
            fields.put(name, demand, range.clone());
        }
    }
}

impl Arc {
    fn fields(&self, case: &Case, fields: &mut Fields) {
        let last_node = case.nodes.len() as i64 - 1;
        fields.put("arc kind", self.kind, 0..=6);
        fields.put("from", self.from as i64, 0..=last_node);
        fields.put("to", self.to as i64, 0..=last_node);
        fields.put("qmax", self.qmax, 0..=MOST_FLOW);
        let ranges = self.ranges_of_more(case.stations.len() as i64 - 1);
        for (value, (name, range)) in self.more.into_iter().zip(ranges) {
            fields.put(name, value, range);
        }
    }

    /// What isn't used is 0.
    fn ranges_of_more(&self, last_station: i64) -> Vec<(&'static str, RangeInclusive<i64>)> {
        let both_ways = if self.kind == SHORTCUT { 1..=1 } else { 0..=1 };
        let pipe = [
            ("c", 1..=100_000_000),
            ("f", 0..=10_000_000),
            ("g", 0..=10_000_000),
            ("h", -200_000..=200_000),
        ];
        let artificial = [
            ("station", 0..=last_station),
            ("both-ways", both_ways),
            ("weight of an arc", 0..=MOST_WEIGHT),
            ("active at step 0", 0..=1),
        ];
        let machinery = [
            ("machine set", 0..=4_095),
            ("most machines", 0..=12),
            ("out bound", 0..=MOST_PRESSURE),
        ];
        let mut ranges = Vec::new();
        match self.kind {
            VALVE | REGULATOR => {}
            PIPE => ranges.extend(pipe),
            SHORTCUT | REGULATING => ranges.extend(artificial),
            _ => ranges.extend(artificial.into_iter().chain(machinery)),
        }
        ranges.resize(7, ("zero", 0..=0));
        ranges
    }
}

impl Station {
    fn fields(&self, fields: &mut Fields) {
        let directions = self.directions.len() as i64;
        let states = self.states.len() as i64;
        fields.put("F", directions, 1..=8);
        fields.put("Z", states, 1..=16);
        fields.put("M", self.machines.len() as i64, 0..=12);
        fields.put(
            "direction at step 0",
            self.direction_at_0 as i64,
            0..=directions - 1,
        );
        fields.put("state at step 0", self.state_at_0 as i64, 0..=states - 1);
        for &[entry, exit, weight] in &self.directions {
            fields.put("entry set", entry, 0..=(1 << 60) - 1);
            fields.put("exit set", exit, 0..=(1 << 60) - 1);
            fields.put("weight of a direction", weight, 0..=MOST_WEIGHT);
        }
        for &[supported, on, off, weight] in &self.states {
            fields.put("direction set", supported, 0..=(1 << directions) - 1);
            fields.put("on set", on, 0..=(1 << 30) - 1);
            fields.put("off set", off, 0..=(1 << 30) - 1);
            fields.put("weight of a state", weight, 0..=MOST_WEIGHT);
        }
        for &[flow, ratio] in &self.machines {
            fields.put("Q", flow, 0..=MOST_FLOW);
            fields.put("R", ratio, 1_001..=10_000);
        }
    }
}
