//! Inputs for a gas plan checker, all of them from a seed.
//!
//! Accepted pairs of case and plan are built so that they must be accepted, records of two
//! meters so that they must settle. Aimed changes turn them into inputs with a known first
//! "no"; damage changes them at random.
#![forbid(unsafe_code)]

pub mod aimed;
pub mod bytes;
pub mod counts;
pub mod damage;
pub mod generate;
pub mod model;
pub mod reach;
pub mod records;
pub mod rng;
pub mod rounding;
pub mod slips;
pub mod table_t;

pub use model::{Pair, Refused};
pub use rng::Rng;
