//! Finds the two proved static libraries and links them.
//!
//! They are looked for in `target/staticlib` at the root of the repository, or
//! in the directory that the variable `DRIFTPOCKET_LIB_DIR` names: a full path,
//! or one that starts from this crate's own directory.

use std::env;
use std::path::{Path, PathBuf};
use std::process::exit;

/// The variable that names another directory.
const VARIABLE: &str = "DRIFTPOCKET_LIB_DIR";

/// The libraries, by the names that `./build` takes: the replay, and the
/// reader and writer of run sheets.
const LIBRARIES: [&str; 2] = ["driftpocket", "driftpocket_sheet"];

fn main() {
    let directory = directory();
    println!("cargo:rerun-if-env-changed={VARIABLE}");
    println!("cargo:rustc-link-search=native={}", directory.display());
    let mut missing = 0;
    for library in LIBRARIES {
        let file = directory.join(format!("lib{library}.a"));
        println!("cargo:rerun-if-changed={}", file.display());
        println!("cargo:rustc-link-lib=static={library}");
        if !file.is_file() {
            complain(library, &file);
            missing += 1;
        }
    }
    if missing > 0 {
        eprintln!("driftpocket: or set {VARIABLE} to the directory that has them");
        exit(1);
    }
}

/// Where the libraries are looked for.
fn directory() -> PathBuf {
    let named = env::var_os(VARIABLE).unwrap_or_else(|| "../../target/staticlib".into());
    manifest_directory().join(named)
}

/// Where this crate's `Cargo.toml` is.
fn manifest_directory() -> PathBuf {
    let directory = env::var_os("CARGO_MANIFEST_DIR").expect("cargo sets CARGO_MANIFEST_DIR");
    PathBuf::from(directory)
}

/// Says that a library is missing, and what makes it.
fn complain(library: &str, file: &Path) {
    eprintln!("driftpocket: there is no {}", file.display());
    eprintln!("driftpocket: run `./build {library}` first, at the root of the repository");
}
