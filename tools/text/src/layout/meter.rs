//! What stands where in a meter's record.

use super::{Field, Layout, Part, field};

const ROW: [&str; 2] = ["time", "grams"];

/// Where a record has come to. Another row can always follow.
#[derive(Default)]
pub struct MeterLayout {
    taken: usize,
}

impl Layout for MeterLayout {
    fn due(&self) -> Option<Field> {
        let part = Part::Row(self.taken / ROW.len());
        Some(field(part, ROW[self.taken % ROW.len()]))
    }

    fn take(&mut self, _: i64) {
        self.taken += 1;
    }

    fn may_end(&self) -> bool {
        self.taken.is_multiple_of(ROW.len())
    }
}
