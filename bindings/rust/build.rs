//! Links `libration.a`: from the folder that RATION_LIB names, else from where `tools/archive` writes it.

use std::path::PathBuf;

fn main() {
    println!("cargo:rerun-if-env-changed=RATION_LIB");
    let written = || PathBuf::from(env!("CARGO_MANIFEST_DIR")).join("../../target/archive");
    let folder = std::env::var_os("RATION_LIB").map_or_else(written, PathBuf::from);
    let archive = folder.join("libration.a");
    println!("cargo:rerun-if-changed={}", archive.display());
    if !archive.is_file() {
        println!("cargo:warning={} is missing: tools/archive writes it", archive.display());
    }
    println!("cargo:rustc-link-search=native={}", folder.display());
    println!("cargo:rustc-link-lib=static=ration");
}
