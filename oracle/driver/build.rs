//! Links the archive that `tools/build measure` makes; JUMPERCLAY_LIB_DIR names another directory for it.

use std::env;
use std::path::PathBuf;

fn main() {
    println!("cargo:rerun-if-env-changed=JUMPERCLAY_LIB_DIR");
    let here = PathBuf::from(env::var_os("CARGO_MANIFEST_DIR").expect("cargo sets it"));
    let dir = match env::var_os("JUMPERCLAY_LIB_DIR") {
        Some(dir) => PathBuf::from(dir),
        None => here.join("../../target/staticlib"),
    };
    println!("cargo:rustc-link-search=native={}", dir.display());
    println!("cargo:rustc-link-lib=static=measure");
    println!("cargo:rerun-if-changed={}", dir.join("libmeasure.a").display());
}
