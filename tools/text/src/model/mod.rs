//! A whole case and a plan as rows, for words and pictures. Nothing is judged here.

mod case;
mod plan;
mod rows;

pub use case::Case;
pub use plan::{ArcRow, NodeRow, Plan, StationRow};
pub use rows::{Arc, Direction, Machine, Node, State, Station};

pub const VALVE: i64 = 0;
pub const REGULATOR: i64 = 1;
pub const PIPE: i64 = 2;
pub const SHORTCUT: i64 = 3;
pub const REGULATING: i64 = 4;
pub const COMPRESSOR: i64 = 5;
pub const COMBINED: i64 = 6;

pub const INNER: i64 = 0;
pub const SOURCE: i64 = 1;
pub const SINK: i64 = 2;
