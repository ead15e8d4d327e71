//! Finds the proved library: `libtunebriar.a` in `TUNEBRIAR_LIB_DIR`, or where
//! `host/library` puts it, the repository's `target/staticlib`.

use std::env;
use std::path::{Path, PathBuf};

fn main() {
    let folder = folder();
    let archive = folder.join("libtunebriar.a");
    println!("cargo::rerun-if-env-changed=TUNEBRIAR_LIB_DIR");
    println!("cargo::rerun-if-changed={}", archive.display());
    println!("cargo::rustc-link-search=native={}", folder.display());
    if !archive.is_file() {
        println!(
            "cargo::error={} is not there: run `sh host/library`, or set TUNEBRIAR_LIB_DIR",
            archive.display()
        );
    }
}

/// An absolute folder, since the linker does not run where this does.
fn folder() -> PathBuf {
    let here = env::var_os("CARGO_MANIFEST_DIR").expect("cargo says where the package is");
    let chosen = env::var_os("TUNEBRIAR_LIB_DIR").map(PathBuf::from);
    let built = Path::new(&here).join("../../target/staticlib");
    let folder = chosen.unwrap_or(built);
    std::path::absolute(&folder).unwrap_or(folder)
}
