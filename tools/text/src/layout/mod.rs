//! What stands where in a case list, in a plan list and in a meter's record.
//!
//! A layout says which field is due, and is told the number that came. Nothing is judged
//! here: a list of any numbers has a layout, up to where it ends or has numbers left over.

mod case;
mod meter;
mod plan;
mod words;

pub use case::CaseLayout;
pub use meter::MeterLayout;
pub use plan::{Counts, PlanLayout};

/// The part of a list that a field belongs to. Items count from 0.
#[derive(Clone, Copy, Debug, PartialEq, Eq)]
pub enum Part {
    Head,
    Times,
    Node(usize),
    Arc(usize),
    Station(usize),
    /// A station and one of its directions.
    Direction(usize, usize),
    State(usize, usize),
    Machine(usize, usize),
    /// Of a meter's record.
    Row(usize),
}

/// How people write a field's number.
#[derive(Clone, Copy, Debug, PartialEq, Eq)]
pub enum Form {
    Number,
    Set,
    NodeKind,
    ArcKind,
}

#[derive(Clone, Copy, Debug, PartialEq, Eq)]
pub struct Field {
    pub part: Part,
    /// The step that a time, a demand or a plan's row belongs to.
    pub step: Option<usize>,
    pub name: &'static str,
    pub form: Form,
}

/// A list's layout.
pub trait Layout {
    /// The field that is due; none where the list is whole.
    fn due(&self) -> Option<Field>;
    /// Takes the number of the field that is due.
    fn take(&mut self, number: i64);
    /// May the list end here? A record may after each row, where another can follow.
    fn may_end(&self) -> bool {
        self.due().is_none()
    }
}

/// The layout of a list that has no parts: no field is ever due.
pub struct NoParts;

impl Layout for NoParts {
    fn due(&self) -> Option<Field> {
        None
    }

    fn take(&mut self, _: i64) {}
}

fn field(part: Part, name: &'static str) -> Field {
    Field {
        part,
        step: None,
        name,
        form: Form::Number,
    }
}

fn of_form(part: Part, name: &'static str, set: bool) -> Field {
    Field {
        form: if set { Form::Set } else { Form::Number },
        ..field(part, name)
    }
}

/// The fields of a list, as many as it has numbers in the layout.
pub fn fields(layout: &mut dyn Layout, list: &[i64]) -> Vec<Field> {
    let mut found = Vec::new();
    for &number in list {
        let Some(due) = layout.due() else { break };
        found.push(due);
        layout.take(number);
    }
    found
}

/// The field that is due after these numbers; none where a list is whole with them, or with fewer.
pub fn due_after(layout: &mut dyn Layout, list: &[i64]) -> Option<Field> {
    for &number in list {
        layout.due()?;
        layout.take(number);
    }
    layout.due()
}
