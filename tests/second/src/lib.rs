//! A second account of the gas plan rules, one function to a rule.
//!
//! Each function that answers a question of the document carries the
//! question's number in its name. Any list of numbers may come in: formulas are
//! worked out in 128 bits, so that no product or sum can leave its type.
#![forbid(unsafe_code)]

pub mod call;
pub mod case;
pub mod codec;
pub mod earlier;
pub mod ledger;
pub mod merged;
pub mod plan;
pub mod program;
pub mod settlement;
pub mod verdict;

pub use verdict::{Answer, Refusal, Totals};

/// Widens a list's number, so that formulas on it cannot overflow.
pub(crate) fn wide(number: i64) -> i128 {
    i128::from(number)
}
