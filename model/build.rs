//! Finds the static libraries of the proved bench and has them linked.

use std::env;
use std::path::PathBuf;

/// The library, and what only measuring needs beside it.
const ARCHIVES: [&str; 2] = ["fenderacai", "applying"];

fn main() {
    println!("cargo:rerun-if-env-changed=FENDERACAI_LIB");
    let folder = folder();
    println!("cargo:rustc-link-search=native={}", folder.display());
    for name in ARCHIVES {
        let archive = folder.join(format!("lib{name}.a"));
        println!("cargo:rerun-if-changed={}", archive.display());
        if !archive.is_file() {
            eprintln!("The proved library is missing: {}.", archive.display());
            eprintln!("Make it with the script `library` at the top of the repository,");
            eprintln!("or set FENDERACAI_LIB to the folder that holds what it makes.");
            std::process::exit(1);
        }
        println!("cargo:rustc-link-lib=static={name}");
    }
}

/// The folder that is named by the environment, or else the usual one beside this package.
fn folder() -> PathBuf {
    let here = PathBuf::from(env::var_os("CARGO_MANIFEST_DIR").expect("cargo names the package"));
    match env::var_os("FENDERACAI_LIB") {
        Some(named) => here.join(named),
        None => here.join("../target/staticlib"),
    }
}
