//! Links the static libraries `walk`, `ffi` and `report_ffi` that `scripts/archives` makes.
use std::{env, path::PathBuf};

fn main() {
    let here = PathBuf::from(env::var("CARGO_MANIFEST_DIR").expect("cargo sets it"));
    let libraries = here.join("../../target/staticlib");
    println!("cargo:rustc-link-search=native={}", libraries.display());
    for name in ["walk", "ffi", "report_ffi"] {
        println!("cargo:rustc-link-lib=static={name}");
        let archive = libraries.join(format!("lib{name}.a"));
        println!("cargo:rerun-if-changed={}", archive.display());
    }
}
