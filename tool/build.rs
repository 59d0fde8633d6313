//! Links the proved library: SIFTHORMA_LIBRARY names its archive, or it stands where `rt lib` writes it in crates/sifthorma.

use std::path::{Path, PathBuf};

fn main() {
    println!("cargo::rerun-if-changed=build.rs");
    println!("cargo::rerun-if-env-changed=SIFTHORMA_LIBRARY");
    let usual = Path::new(env!("CARGO_MANIFEST_DIR")).join("../crates/sifthorma/out/libsifthorma.a");
    let named = std::env::var_os("SIFTHORMA_LIBRARY").map(PathBuf::from);
    let archive = named.unwrap_or(usual);
    let Ok(archive) = archive.canonicalize() else {
        let missing = archive.display();
        println!("cargo::error=there is no {missing}: `rt lib` in crates/sifthorma writes crates/sifthorma/out/libsifthorma.a");
        return;
    };
    let folder = archive.parent().expect("a file has a folder");
    println!("cargo::rerun-if-changed={}", archive.display());
    println!("cargo::rustc-link-search=native={}", folder.display());
    println!("cargo::rustc-link-lib=static=sifthorma");
}
