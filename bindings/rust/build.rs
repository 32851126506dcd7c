//! Links the archive that `tools/build overlay` makes; JUMPERCLAY_LIB_DIR names another directory for it.

use std::env;
use std::path::PathBuf;
use std::process::exit;

fn main() {
    println!("cargo:rerun-if-env-changed=JUMPERCLAY_LIB_DIR");
    let here = PathBuf::from(env::var_os("CARGO_MANIFEST_DIR").expect("cargo sets it"));
    let dir = match env::var_os("JUMPERCLAY_LIB_DIR") {
        Some(dir) => PathBuf::from(dir),
        None => here.join("../../target/staticlib"),
    };
    let archive = dir.join("liboverlay.a");
    println!("cargo:rerun-if-changed={}", archive.display());
    if !archive.exists() {
        eprintln!("There is no {}.", archive.display());
        eprintln!("Run `tools/build overlay` in the root of the Jumperclay repository, which makes it,");
        eprintln!("or set JUMPERCLAY_LIB_DIR to the directory that has it.");
        exit(1);
    }
    println!("cargo:rustc-link-search=native={}", dir.display());
    println!("cargo:rustc-link-lib=static=overlay");
}
