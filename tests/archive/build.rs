//! Hands on which archive the library's crate has found and links.

use std::env;

fn main() {
    let archive = env::var("DEP_GASPLAN_ARCHIVE").expect("the crate gasplan names its archive");
    println!("cargo:rustc-env=GASPLAN_ARCHIVE={archive}");
}
