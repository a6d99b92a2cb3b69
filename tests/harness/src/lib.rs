//! Runs a gas plan judge beside the second checker and holds every answer against it.
//!
//! The judge comes in as functions; a call that it doesn't offer is made on the second
//! checker alone. Answers are compared together with all that was lent.
#![forbid(unsafe_code)]

pub mod beside;
pub mod calls;
pub mod codec_rounds;
pub mod demand_3;
pub mod document;
pub mod edges;
pub mod files;
pub mod lent;
pub mod optimisers;
pub mod rounds;
pub mod settlement_rounds;
pub mod tally;

pub use beside::{Beside, Difference};
pub use calls::Judge;
pub use tally::Tally;
