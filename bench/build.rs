//! Compiles the C++ adapter with the system's compiler and says what to link.

use std::env;
use std::path::PathBuf;
use std::process::Command;

/// The folder of the proved archive.
const ARCHIVE: &str = "../target/staticlib";

fn run(command: &mut Command) {
    let status = command.status().unwrap_or_else(|error| panic!("{command:?}: {error}"));
    assert!(status.success(), "{command:?}: {status}");
}

fn main() {
    println!("cargo:rerun-if-changed=iitii_adapter.cpp");
    println!("cargo:rerun-if-changed={ARCHIVE}/libphayaklit.a");
    let out = PathBuf::from(env::var("OUT_DIR").expect("cargo sets OUT_DIR"));
    let (object, archive) = (out.join("iitii_adapter.o"), out.join("libiitii_adapter.a"));
    let flags = ["-std=c++17", "-O3", "-DNDEBUG", "-fopenmp", "-w", "-c", "iitii_adapter.cpp", "-o"];
    run(Command::new("g++").args(flags).arg(&object));
    run(Command::new("ar").arg("crs").arg(&archive).arg(&object));
    println!("cargo:rustc-link-search=native={}", out.display());
    println!("cargo:rustc-link-search=native={ARCHIVE}");
    println!("cargo:rustc-link-lib=static=iitii_adapter");
    for library in ["mmap_allocator", "stdc++", "gomp", "atomic"] {
        println!("cargo:rustc-link-lib={library}");
    }
}
