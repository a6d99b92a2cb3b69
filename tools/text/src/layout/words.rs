//! A field in words: its address, its unit, and how people name it.

use std::fmt;

use super::{Field, Part};

impl Field {
    /// A short name that tells the field from all others, as `step 1 arc 0 b`.
    pub fn address(&self) -> String {
        let name = self.name;
        let part = match self.part {
            Part::Head => return name.to_string(),
            Part::Times => return format!("time {}", self.step.unwrap_or(0)),
            part => part.to_string(),
        };
        match (self.name, self.step) {
            ("demand", Some(step)) => format!("{part} demand {step}"),
            (_, Some(step)) => format!("step {step} {part} {name}"),
            (_, None) => format!("{part} {name}"),
        }
    }

    /// The part alone, with its step where it has one, as `step 1 arc 0`.
    pub fn address_of_part(&self) -> String {
        match self.step {
            Some(step) => format!("step {step} {}", self.part),
            None => self.part.to_string(),
        }
    }

    /// The unit of the field's number, where it has one.
    pub fn unit(&self) -> Option<&'static str> {
        match self.name {
            "p0" | "low" | "high" | "actlow" | "acthigh" | "pressure-tolerance" | "p" | "u+"
            | "u-" | "out-bound" => Some("mbar"),
            "demand" | "qmax" | "d" | "s+" | "s-" | "a" | "b" | "flow" => Some("g/s"),
            "mass-tolerance" | "grams" => Some("g"),
            "time" => Some("s"),
            "c" => Some("g per mbar"),
            "f" | "g" => Some("millionths of a mbar per g/s"),
            "h" => Some("millionths"),
            "ratio" => Some("thousandths"),
            _ => None,
        }
    }
}

impl fmt::Display for Part {
    fn fmt(&self, f: &mut fmt::Formatter<'_>) -> fmt::Result {
        match self {
            Part::Head => write!(f, "head"),
            Part::Times => write!(f, "times"),
            Part::Node(node) => write!(f, "node {node}"),
            Part::Arc(arc) => write!(f, "arc {arc}"),
            Part::Station(station) => write!(f, "station {station}"),
            Part::Direction(station, row) => write!(f, "station {station} direction {row}"),
            Part::State(station, row) => write!(f, "station {station} state {row}"),
            Part::Machine(station, row) => write!(f, "station {station} machine {row}"),
            Part::Row(row) => write!(f, "row {row}"),
        }
    }
}

/// In words, as "demand of node 1 at step 3".
impl fmt::Display for Field {
    fn fmt(&self, f: &mut fmt::Formatter<'_>) -> fmt::Result {
        let name = self.name;
        match self.part {
            Part::Head => write!(f, "{name}")?,
            Part::Times => write!(f, "time")?,
            Part::Direction(station, row) => {
                write!(f, "{name} of direction {row} of station {station}")?;
            }
            Part::State(station, row) => write!(f, "{name} of state {row} of station {station}")?,
            Part::Machine(station, row) => {
                write!(f, "{name} of machine {row} of station {station}")?;
            }
            part => write!(f, "{name} of {part}")?,
        }
        match self.step {
            Some(step) => write!(f, " at step {step}"),
            None => Ok(()),
        }
    }
}
