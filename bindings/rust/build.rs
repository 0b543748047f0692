//! Says where the static library lies: in the folder that PIXEL_STEP_LIB_DIR
//! names, or in crates/pixel_step/out at the repository's root.

use std::env;
use std::path::PathBuf;

const VARIABLE: &str = "PIXEL_STEP_LIB_DIR";

fn main() {
    println!("cargo::rerun-if-env-changed={VARIABLE}");
    let folder = folder();
    let library = folder.join("libpixel_step.a");
    println!("cargo::rerun-if-changed={}", library.display());
    if !library.is_file() {
        println!(
            "cargo::error={} is missing: run `rt lib` in crates/pixel_step, \
             or set {VARIABLE} to the folder that holds libpixel_step.a",
            library.display()
        );
    }
    println!("cargo::rustc-link-search=native={}", folder.display());
}

/// A relative folder is meant from the crate.
fn folder() -> PathBuf {
    let root = PathBuf::from(env::var_os("CARGO_MANIFEST_DIR").expect("set by cargo"));
    match env::var_os(VARIABLE) {
        Some(folder) if !folder.is_empty() => root.join(folder),
        _ => root.join("../../crates/pixel_step/out"),
    }
}
