//! Links the two static libraries. Their folder is VEHICLE_LIB, or else the folder where `tools/archive` makes them.
//!
//! Where they are not there the crate is still checked and documented, since neither asks for them; a program that is linked then misses the
//! calls, and the warning says why.

use std::{env, path::PathBuf};

/// In the order in which a linker has to see them.
const LIBRARIES: [&str; 2] = ["vehicle_help", "vehicle_controller"];

fn main() {
    println!("cargo::rerun-if-env-changed=VEHICLE_LIB");
    let here =
        PathBuf::from(env::var_os("CARGO_MANIFEST_DIR").expect("cargo sets CARGO_MANIFEST_DIR"));
    let folder = env::var_os("VEHICLE_LIB")
        .map_or_else(|| here.join("../../target/staticlib"), PathBuf::from);
    let archives = LIBRARIES.map(|library| folder.join(format!("lib{library}.a")));
    for archive in &archives {
        println!("cargo::rerun-if-changed={}", archive.display());
    }
    if let Some(missing) = archives.iter().find(|archive| !archive.is_file()) {
        println!(
            "cargo::warning={} is not there, so nothing can be linked: run tools/archive, or set VEHICLE_LIB to the folder of the installed libraries, by a path from the root",
            missing.display()
        );
        return;
    }
    println!("cargo::rustc-link-search=native={}", folder.display());
    for library in LIBRARIES {
        println!("cargo::rustc-link-lib=static={library}");
    }
}
