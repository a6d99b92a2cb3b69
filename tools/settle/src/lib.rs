//! Settles the records of two meters at a border point, for people and for scripts.
//!
//! The verdict with its figures is the proved library's. Nothing else here is proved.
#![forbid(unsafe_code)]

pub mod answer;
pub mod questions;
pub mod records;
pub mod report;
pub mod request;
pub mod rows;
pub mod warnings;
