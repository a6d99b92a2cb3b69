//! Says in words and in a picture why a gas plan is refused, or what an accepted one holds.
//!
//! The verdict is the proved library's. Nothing else here is proved.
#![forbid(unsafe_code)]

pub mod amount;
pub mod answer;
pub mod arc_rules;
pub mod balance;
pub mod bound;
pub mod byte_rules;
pub mod case_rules;
pub mod change;
pub mod check;
pub mod explanation;
pub mod field_rules;
pub mod input;
pub mod limits;
pub mod listing;
pub mod margins;
pub mod node_rules;
pub mod noes;
pub mod pipe_rules;
pub mod questions;
mod ranges;
pub mod report;
pub mod request;
pub mod rules;
pub mod source;
pub mod station_rules;
pub mod svg;

pub use explanation::{Explanation, Mark, Region, explain_refusal};
pub use input::{Input, Lists};
