//! Links the C library that the script `build-library` builds.

use std::path::Path;
use std::process::exit;

fn main() {
    let folder = Path::new(env!("CARGO_MANIFEST_DIR")).join("../../target/staticlib");
    let archive = folder.join("libebds_c.a");
    println!("cargo:rerun-if-changed={}", archive.display());
    if !archive.exists() {
        eprintln!(
            "{} is missing: run `./build-library` in the repository's root first",
            archive.display()
        );
        exit(1);
    }
    println!("cargo:rustc-link-search=native={}", folder.display());
    println!("cargo:rustc-link-lib=static=ebds_c");
}
