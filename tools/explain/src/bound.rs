//! The bounds of 21 to 33 that a plan can come close to.
//!
//! Left out are equations (22, 25, zeros, equal pressures of 26, also where an arc compresses with no machine on),
//! choices (settings, sets, 30, 31), a range of one number, and the 0 below what may be unused: d, slacks and flows.

/// In the order of the document.
#[derive(Clone, Copy, Debug, PartialEq, Eq, PartialOrd, Ord)]
pub enum Bound {
    Pressure,
    BoundaryFlow,
    SlackBelow,
    SlackAbove,
    ActiveLow,
    ActiveHigh,
    Flow,
    Falling,
    Rising,
    OutBound,
    Reach,
    MostMachines,
    MachineFlow,
    Stored,
    Friction,
    Entry,
    Exit,
    Balance,
}

impl Bound {
    /// The question that asks for it.
    pub fn number(self) -> i64 {
        match self {
            Bound::Pressure | Bound::BoundaryFlow | Bound::SlackBelow | Bound::SlackAbove => 21,
            Bound::ActiveLow | Bound::ActiveHigh => 23,
            Bound::Flow => 24,
            Bound::Falling | Bound::Rising | Bound::OutBound | Bound::Reach => 26,
            Bound::MostMachines | Bound::MachineFlow => 27,
            Bound::Stored => 28,
            Bound::Friction => 29,
            Bound::Entry | Bound::Exit => 32,
            Bound::Balance => 33,
        }
    }

    pub fn words(self) -> &'static str {
        match self {
            Bound::Pressure => "p within low to high",
            Bound::BoundaryFlow => "d, s+ and s- within 10,000,000",
            Bound::SlackBelow => "u+ at most actlow - low",
            Bound::SlackAbove => "u- at most high - acthigh",
            Bound::ActiveLow => "p + u+ at least actlow, where there is demand",
            Bound::ActiveHigh => "p - u- at most acthigh, where there is demand",
            Bound::Flow => "flow within qmax",
            Bound::Falling => "no rise of pressure over a regulator or a regulating arc",
            Bound::Rising => "no fall of pressure over a compressing arc",
            Bound::OutBound => {
                "p at the out end at most the out bound, or its acthigh where that is 0, compressing"
            }
            Bound::Reach => {
                "p at the out end at most what the machines reach from p at the in end, compressing"
            }
            Bound::MostMachines => "machines on at most the most machines, compressing",
            Bound::MachineFlow => "flow at most what the machines take, compressing",
            Bound::Stored => "gas stored within the mass tolerance",
            Bound::Friction => "friction and slope within the pressure tolerance",
            Bound::Entry => "no flow out of the station at an entry",
            Bound::Exit => "no flow into the station at an exit",
            Bound::Balance => "balance within the mass tolerance",
        }
    }
}
