//! Tells the linker where the archive `libkadvisk.a` is: in KADVISK_LIB, or where `scripts/archive` writes it.
use std::env;
use std::path::PathBuf;

fn main() {
    let written = || PathBuf::from(env::var_os("CARGO_MANIFEST_DIR").expect("cargo sets it")).join("../../target/staticlib");
    let folder = env::var_os("KADVISK_LIB").map(PathBuf::from).unwrap_or_else(written);
    let archive = folder.join("libkadvisk.a");
    println!("cargo:rerun-if-env-changed=KADVISK_LIB");
    println!("cargo:rerun-if-changed={}", archive.display());
    if !archive.exists() {
        println!("cargo:warning=no {}: run `scripts/archive` at the root of the repository, or set KADVISK_LIB", archive.display());
    }
    println!("cargo:rustc-link-search=native={}", folder.display());
    println!("cargo:rustc-link-lib=static=kadvisk");
}
