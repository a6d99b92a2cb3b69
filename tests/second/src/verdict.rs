//! What a judging ends in.

use std::fmt;

/// The first "no": the question's number, the step and the place.
#[derive(Clone, Copy, Debug, PartialEq, Eq)]
pub struct Refusal {
    pub number: u8,
    pub step: usize,
    pub place: usize,
}

impl Refusal {
    pub fn new(number: u8, step: usize, place: usize) -> Self {
        Refusal {
            number,
            step,
            place,
        }
    }
}

pub type Answer<T> = Result<T, Refusal>;

/// Goes on after a "yes", ends with the question's number after a "no".
pub(crate) fn ask(number: u8, yes: bool, step: usize, place: usize) -> Answer<()> {
    if yes {
        Ok(())
    } else {
        Err(Refusal::new(number, step, place))
    }
}

/// What an accepted plan carries.
#[derive(Clone, Copy, Debug, Default, PartialEq, Eq)]
pub struct Totals {
    pub pressure_slack: i128,
    pub demand_slack: i128,
    pub switching_cost: i128,
    pub residual: i128,
    pub gas_at_start: i128,
    pub gas_at_end: i128,
}

impl Totals {
    /// The six totals in the document's order.
    pub fn figures(&self) -> [i128; 6] {
        [
            self.pressure_slack,
            self.demand_slack,
            self.switching_cost,
            self.residual,
            self.gas_at_start,
            self.gas_at_end,
        ]
    }
}

impl fmt::Display for Refusal {
    fn fmt(&self, f: &mut fmt::Formatter<'_>) -> fmt::Result {
        write!(f, "refused {} {} {}", self.number, self.step, self.place)
    }
}

impl fmt::Display for Totals {
    fn fmt(&self, f: &mut fmt::Formatter<'_>) -> fmt::Result {
        let [pressure, demand, switching, residual, start, end] = self.figures();
        write!(
            f,
            "accepted {pressure} {demand} {switching} {residual} {start} {end}"
        )
    }
}

/// The verdict as one line of text.
pub fn line(verdict: &Answer<Totals>) -> String {
    match verdict {
        Ok(totals) => totals.to_string(),
        Err(refusal) => refusal.to_string(),
    }
}
