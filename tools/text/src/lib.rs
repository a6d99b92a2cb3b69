//! Gas cases, plans and the records of meters as text for people: one number or named field a line, or a row of a record.
//!
//! A text says with its first word what it holds, `case`, `plan`, `meter` or `numbers`. Bytes are
//! read and written by the proved library alone.
#![forbid(unsafe_code)]

mod cursor;
pub mod files;
pub mod layout;
pub mod model;
mod names;
pub mod parse;
pub mod replace;
pub mod terminal;
pub mod unread;
pub mod words;
pub mod write;

pub use parse::{Error, parse, parse_as};
