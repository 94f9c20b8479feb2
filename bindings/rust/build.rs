//! Links the proved archive: `libexports.a` in `VOB_LIB_DIR`, or where `rt lib` in crates/exports writes it.

use std::env;
use std::path::PathBuf;

fn main() {
    println!("cargo::rerun-if-env-changed=VOB_LIB_DIR");
    let folder = match env::var_os("VOB_LIB_DIR") {
        Some(folder) => PathBuf::from(folder),
        None => PathBuf::from(env!("CARGO_MANIFEST_DIR")).join("../../crates/exports/out"),
    };
    let archive = folder.join("libexports.a");
    println!("cargo::rerun-if-changed={}", archive.display());
    if !archive.is_file() {
        println!("cargo::error=no {}: run `rt lib` in crates/exports", archive.display());
    }
    println!("cargo::rustc-link-search=native={}", folder.display());
    println!("cargo::rustc-link-lib=static=exports");
}
