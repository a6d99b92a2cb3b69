//! How much: a number with what it counts.

use std::fmt;

use gasplan_text::words::grouped;

#[derive(Clone, Copy, Debug, PartialEq, Eq)]
pub enum Unit {
    /// Written after the number.
    Of(&'static str),
    /// A thing that is counted, as `machine`.
    Thing(&'static str),
    /// Told in mbar.
    MillionthOfMbar,
}

pub const MBAR: Unit = Unit::Of("mbar");
pub const FLOW: Unit = Unit::Of("g/s");
pub const MASS: Unit = Unit::Of("g");
pub const MACHINE: Unit = Unit::Thing("machine");

#[derive(Clone, Copy, Debug, PartialEq, Eq)]
pub struct Amount {
    pub count: i128,
    pub unit: Unit,
}

impl fmt::Display for Amount {
    fn fmt(&self, f: &mut fmt::Formatter<'_>) -> fmt::Result {
        let Amount { count, unit } = *self;
        match unit {
            Unit::Of(unit) => write!(f, "{} {unit}", grouped(count)),
            Unit::Thing(thing) if count == 1 => write!(f, "1 {thing}"),
            Unit::Thing(thing) => write!(f, "{} {thing}s", grouped(count)),
            Unit::MillionthOfMbar => write!(f, "{} mbar", millionths(count)),
        }
    }
}

/// A number of millionths as a decimal, as `-1.25`.
fn millionths(count: i128) -> String {
    let sign = if count < 0 { "-" } else { "" };
    let size = count.abs();
    let (whole, part) = (size / 1_000_000, size % 1_000_000);
    let digits = format!("{part:06}");
    match digits.trim_end_matches('0') {
        "" => format!("{sign}{}", grouped(whole)),
        digits => format!("{sign}{}.{digits}", grouped(whole)),
    }
}
