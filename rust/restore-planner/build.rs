//! Finds `libplanner.a`, which `scripts/static_library.sh` writes, and has it linked.

use std::env;
use std::path::PathBuf;

/// Names the directory that holds `libplanner.a`, in place of the repository's.
const VARIABLE: &str = "PLANNER_STATICLIB_DIR";

fn main() {
    println!("cargo:rerun-if-env-changed={VARIABLE}");
    let directory = match env::var_os(VARIABLE) {
        Some(directory) => PathBuf::from(directory),
        None => {
            PathBuf::from(env::var_os("CARGO_MANIFEST_DIR").expect("cargo sets CARGO_MANIFEST_DIR"))
                .join("../../target/staticlib")
        }
    };
    let archive = directory.join("libplanner.a");
    println!("cargo:rerun-if-changed={}", archive.display());
    if !archive.is_file() {
        eprintln!(
            "{} is not there: run `scripts/static_library.sh` of the repository, or set {VARIABLE} to the directory that has it",
            archive.display()
        );
        std::process::exit(1);
    }
    println!("cargo:rustc-link-search=native={}", directory.display());
    println!("cargo:rustc-link-lib=static=planner");
}
