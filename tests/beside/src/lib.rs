//! The proved gas plan library beside the second checker.
#![forbid(unsafe_code)]

pub mod library;
pub mod program;
