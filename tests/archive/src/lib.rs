//! What the header says of the library, held to the archive and to the sources.
//!
//! The stack that a call takes is found in two ways. `painted` runs a call on a stack of its own and looks how far down it was
//! touched: so much it took, on that input. `frames` adds up the longest chain of frames in the machine code: more it
//! cannot take, on any.
#![deny(unsafe_code)]

pub mod frames;
pub mod header;
#[allow(unsafe_code)]
pub mod painted;
pub mod signatures;

use std::fs;
use std::path::{Path, PathBuf};
use std::process::Command;

/// The archive that these tests are linked with.
pub fn archive() -> &'static Path {
    Path::new(env!("GASPLAN_ARCHIVE"))
}

/// A file of the repository.
///
/// # Panics
/// If it cannot be read.
pub fn source(name: &str) -> String {
    let path = root().join(name);
    fs::read_to_string(&path).unwrap_or_else(|error| panic!("{}: {error}", path.display()))
}

pub fn root() -> PathBuf {
    Path::new(env!("CARGO_MANIFEST_DIR")).join("../..")
}

/// What a tool of the compiler's prints about the archive.
///
/// # Panics
/// If the tool is missing or fails.
pub fn listing(tool: &str, words: &[&str]) -> String {
    let done = Command::new(tool).args(words).arg(archive()).output();
    let done = done.unwrap_or_else(|error| panic!("{tool}: {error}"));
    assert!(done.status.success(), "{tool}: {done:?}");
    String::from_utf8_lossy(&done.stdout).into_owned()
}
