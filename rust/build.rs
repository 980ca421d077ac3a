//! Finds the proved library, libgleanrime.a: in the folder that GLEANRIME_LIB_DIR names, else in target/library of the repository.
use std::env;
use std::path::{Path, PathBuf};

fn main() {
    println!("cargo::rerun-if-env-changed=GLEANRIME_LIB_DIR");
    let here = PathBuf::from(env::var_os("CARGO_MANIFEST_DIR").expect("cargo sets it"));
    let folder = env::var_os("GLEANRIME_LIB_DIR").map_or_else(|| here.join("../target/library"), PathBuf::from);
    let archive = folder.join("libgleanrime.a");
    println!("cargo::rerun-if-changed={}", archive.display());
    if !archive.is_file() {
        missing(&folder);
    }
    println!("cargo::rustc-link-search=native={}", folder.display());
    println!("cargo::rustc-link-lib=static=gleanrime");
}

fn missing(folder: &Path) {
    println!("cargo::error=there is no libgleanrime.a in {}", folder.display());
    println!("cargo::error=make it with `library/archive gleanrime`, called from the root of the repository (it proves the library first),");
    println!("cargo::error=or set GLEANRIME_LIB_DIR to the folder that has it");
    std::process::exit(1);
}
