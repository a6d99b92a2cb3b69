//! Finds the proved archive, `libgasplan.a`: in the folder that `GASPLAN_LIB_DIR` names; or in the repository that this
//! crate stands in; or, where it stands in none, where pkg-config knows a `gasplan` of this crate's version.

use std::env;
use std::path::{Path, PathBuf};
use std::process::{Command, exit};

/// Names a folder that holds the archive.
const FOLDER: &str = "GASPLAN_LIB_DIR";
const ARCHIVE: &str = "libgasplan.a";

fn main() {
    println!("cargo:rerun-if-env-changed={FOLDER}");
    println!("cargo:rerun-if-env-changed=PKG_CONFIG_PATH");
    let found = known_target().and_then(|()| folder());
    let folder = found.unwrap_or_else(|why| {
        eprintln!("{why}");
        exit(1);
    });
    let archive = folder.join(ARCHIVE);
    println!("cargo:rerun-if-changed={}", archive.display());
    println!("cargo:archive={}", archive.display());
    println!("cargo:rustc-link-search=native={}", folder.display());
    println!("cargo:rustc-link-lib=static=gasplan");
}

/// The archive holds machine code.
fn known_target() -> Result<(), String> {
    let part = |name: &str| env::var(name).unwrap_or_default();
    let (machine, system) = (part("CARGO_CFG_TARGET_ARCH"), part("CARGO_CFG_TARGET_OS"));
    match (machine.as_str(), system.as_str()) {
        ("x86_64", "linux") => Ok(()),
        _ => Err(format!(
            "{ARCHIVE} is for x86_64 and linux, not for {machine} and {system}"
        )),
    }
}

fn folder() -> Result<PathBuf, String> {
    if let Some(named) = env::var_os(FOLDER).map(PathBuf::from) {
        return match named.is_absolute() {
            true => with_archive(named, &format!("{FOLDER} names this folder")),
            false => Err(format!("{FOLDER} is no absolute path: {}", named.display())),
        };
    }
    let here = PathBuf::from(env::var_os("CARGO_MANIFEST_DIR").unwrap_or_default());
    match here.ancestors().nth(2) {
        // The repository's own and no other: an installed one may be older.
        Some(root) if root.join("crates/gasplan").is_dir() => with_archive(
            root.join("target/staticlib"),
            "make it with 'tools/prove gasplan' in the repository's root",
        ),
        _ => with_archive(installed()?, "pkg-config names this folder"),
    }
}

fn with_archive(folder: PathBuf, words: &str) -> Result<PathBuf, String> {
    let archive = folder.join(ARCHIVE);
    match archive.is_file() {
        true => Ok(folder),
        false => Err(format!("{} is absent: {words}", archive.display())),
    }
}

/// The folder of an installed library of the same version.
fn installed() -> Result<PathBuf, String> {
    let wanted = format!("gasplan = {}", env!("CARGO_PKG_VERSION"));
    let asked = Command::new("pkg-config")
        .args(["--variable=libdir", "--print-errors", &wanted])
        .output();
    let why = match asked {
        Ok(done) if done.status.success() => {
            let folder = String::from_utf8_lossy(&done.stdout);
            return Ok(Path::new(folder.trim()).to_path_buf());
        }
        Ok(done) => String::from_utf8_lossy(&done.stderr).into_owned(),
        Err(error) => format!("pkg-config: {error}"),
    };
    Err(format!(
        "{why}\nName the folder that holds {ARCHIVE} in {FOLDER}, or install it where pkg-config looks."
    ))
}
