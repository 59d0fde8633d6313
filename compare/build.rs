//! Links the proved library if SIFTHORMA_LIBRARY names its archive; without it everything else is built.

use std::path::Path;

fn main() {
    println!("cargo::rustc-check-cfg=cfg(library)");
    println!("cargo::rerun-if-changed=build.rs");
    println!("cargo::rerun-if-env-changed=SIFTHORMA_LIBRARY");
    let Ok(archive) = std::env::var("SIFTHORMA_LIBRARY") else {
        return;
    };
    let archive = Path::new(&archive)
        .canonicalize()
        .expect("SIFTHORMA_LIBRARY names an archive");
    let folder = archive.parent().expect("a file has a folder");
    println!("cargo::rustc-cfg=library");
    println!("cargo::rerun-if-changed={}", archive.display());
    println!("cargo::rustc-link-search=native={}", folder.display());
    println!("cargo::rustc-link-lib=static=sifthorma");
}
