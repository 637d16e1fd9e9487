//! Links the static library `embed`, which `rt lib` builds in the folder `crates/embed`. The environment
//! variable NABROTZU_LIB_DIR names another directory.

use std::env;
use std::path::PathBuf;

fn main() {
    println!("cargo::rerun-if-env-changed=NABROTZU_LIB_DIR");
    let directory = match env::var_os("NABROTZU_LIB_DIR") {
        Some(directory) => PathBuf::from(directory),
        None => PathBuf::from(env::var_os("CARGO_MANIFEST_DIR").expect("cargo sets CARGO_MANIFEST_DIR"))
            .join("../../crates/embed/out"),
    };
    let archive = directory.join("libembed.a");
    if !archive.exists() {
        println!("cargo::warning={} is missing: build it by `rt lib` in crates/embed", archive.display());
    }
    println!("cargo::rerun-if-changed=build.rs");
    println!("cargo::rerun-if-changed={}", archive.display());
    println!("cargo::rustc-link-search=native={}", directory.display());
    println!("cargo::rustc-link-lib=static=embed");
}
