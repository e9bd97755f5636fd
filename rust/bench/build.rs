//! Hands the optimisation level of this build on to the program, which prints it.
//!
//! Where the variable `DRIFTPOCKET_BEFORE_LIB_DIR` names a directory with an earlier build of the
//! proved library (a full path, or one that starts from this crate's own directory), copies of that
//! and of the present one are linked besides, to be timed against each other.

use std::env;
use std::path::{Path, PathBuf};
use std::process::{Command, exit};

/// The variable that names the directory of the earlier library.
const BEFORE: &str = "DRIFTPOCKET_BEFORE_LIB_DIR";

/// The one for the present library, from the directory of the crate `driftpocket`.
const PRESENT: &str = "DRIFTPOCKET_LIB_DIR";

fn main() {
    let level = env::var("OPT_LEVEL").unwrap_or_default();
    println!("cargo::rerun-if-changed=build.rs");
    println!("cargo::rerun-if-env-changed={BEFORE}");
    println!("cargo::rerun-if-env-changed={PRESENT}");
    println!("cargo::rustc-env=BENCH_OPT_LEVEL={level}");
    println!("cargo::rustc-check-cfg=cfg(before_library)");
    if let Some(before) = env::var_os(BEFORE)
        && let Err(message) = link_both(Path::new(&before))
    {
        eprintln!("driftpocket-bench: {message}");
        exit(1);
    }
}

/// Links a copy of either library, and tells the crate that they are there.
fn link_both(before: &Path) -> Result<(), String> {
    let here = directory_in("CARGO_MANIFEST_DIR");
    let present = env::var_os(PRESENT).unwrap_or_else(|| "../../target/staticlib".into());
    let present = here.join("../driftpocket").join(present);
    link("before", BEFORE, &here.join(before))?;
    link("present", PRESENT, &present)?;
    let output = directory_in("OUT_DIR");
    println!("cargo::rustc-link-search=native={}", output.display());
    println!("cargo::rustc-cfg=before_library");
    Ok(())
}

/// Links a copy of the library in a directory that a variable names.
fn link(name: &str, variable: &str, directory: &Path) -> Result<(), String> {
    let library = directory.join("libdriftpocket.a");
    let path = library.display();
    println!("cargo::rerun-if-changed={path}");
    println!("cargo::rustc-link-lib=static=driftpocket_{name}");
    if !library.is_file() {
        return Err(format!(
            "there is no {path}; {variable} names the directory"
        ));
    }
    copy(name, &library)
}

/// Writes the copy. It exports another name, as two libraries that export one name do not link, and
/// its functions start at multiples of 64: else the place that the linker happens to choose makes
/// one of two equal libraries up to a third slower.
fn copy(name: &str, library: &Path) -> Result<(), String> {
    let renaming = format!("driftpocket_run=driftpocket_run_{name}");
    let copy = directory_in("OUT_DIR").join(format!("libdriftpocket_{name}.a"));
    let mut command = Command::new("objcopy");
    command.args(["--redefine-sym", &renaming]);
    command.args(["--set-section-alignment", ".text*=64"]);
    let status = command.args([library, &copy]).status().map_err(|error| {
        format!("{BEFORE} needs objcopy, which does not start from PATH: {error}")
    })?;
    if status.success() {
        Ok(())
    } else {
        Err(format!("objcopy of {}: {status}", library.display()))
    }
}

/// The directory in a variable that cargo sets.
fn directory_in(variable: &str) -> PathBuf {
    PathBuf::from(env::var_os(variable).expect("cargo sets it"))
}
