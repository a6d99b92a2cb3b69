//! Many folders, each with a case and a plan, judged side by side by the proved library.
//!
//! The verdicts are the program's: its limits, its lists, one line each. What is done here is to name, read, share out and print.
#![forbid(unsafe_code)]

pub mod folder;
pub mod line;
pub mod names;
pub mod progress;
pub mod request;
pub mod side_by_side;
