//! Compiles the calls of Clipper and GEOS, and links these: libpolyclipping-dev and libgeos-dev on Debian.

use std::env;
use std::path::PathBuf;
use std::process::{exit, Command};

fn main() {
    println!("cargo:rerun-if-changed=src/peers.cpp");
    let out = PathBuf::from(env::var_os("OUT_DIR").expect("cargo sets it"));
    let object = out.join("peers.o");
    let compile = ["-std=c++17", "-O2", "-Wall", "-Wextra", "-c", "src/peers.cpp", "-o"];
    run(Command::new("c++").args(compile).arg(&object));
    run(Command::new("ar").arg("crs").arg(out.join("libpeers.a")).arg(&object));
    println!("cargo:rustc-link-search=native={}", out.display());
    println!("cargo:rustc-link-lib=static=peers");
    for library in ["polyclipping", "geos_c", "stdc++"] {
        println!("cargo:rustc-link-lib={library}");
    }
}

fn run(command: &mut Command) {
    if !command.status().is_ok_and(|status| status.success()) {
        eprintln!("This went wrong: {command:?}");
        eprintln!("It needs a C++ compiler, Clipper 6 and GEOS: on Debian g++, libpolyclipping-dev and libgeos-dev.");
        exit(1);
    }
}
