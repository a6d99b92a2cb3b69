//! Texts that can be read, and folders to have them in.

use std::fs;
use std::path::{Path, PathBuf};

pub const CASE: &str = "case\n1\n1\n0\n0\n1\n0\n0\n60\n1\n2\n3\n4\n5\n6\n7\n";
pub const PLAN: &str = "plan 1 nodes 0 arcs 0 stations\n1\n1\n50\n0\n0\n0\n0\n0\n";

/// A folder of a test, with these files and no other.
pub fn folder(test: &str, name: &str, files: &[(&str, &[u8])]) -> PathBuf {
    let folder = Path::new(env!("CARGO_TARGET_TMPDIR")).join(test).join(name);
    let _ = fs::remove_dir_all(&folder);
    fs::create_dir_all(&folder).expect("a folder to write into");
    for (name, bytes) in files {
        fs::write(folder.join(name), bytes).unwrap();
    }
    folder
}

/// The names in a folder, in order.
pub fn names(folder: &Path) -> Vec<String> {
    let entries = fs::read_dir(folder).unwrap();
    let name = |entry: fs::DirEntry| entry.file_name().into_string().unwrap();
    let mut names: Vec<String> = entries.map(|entry| name(entry.unwrap())).collect();
    names.sort();
    names
}
