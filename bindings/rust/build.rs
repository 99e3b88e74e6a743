//! Links `libexports.a` and `liblive.a` of the repository's `crates/exports/out/`
//! and `crates/live/out/`, which `rt lib` in these crates writes, or of the one
//! folder that LSQ_LIB_DIR names.

use std::env;
use std::path::{Path, PathBuf};

fn main() {
    println!("cargo:rerun-if-env-changed=LSQ_LIB_DIR");
    let named = env::var_os("LSQ_LIB_DIR").map(PathBuf::from);
    for library in ["live", "exports"] {
        let folder = named.clone().unwrap_or_else(|| default_folder(library));
        link(&folder, library);
    }
}

fn link(folder: &Path, library: &str) {
    let archive = folder.join(format!("lib{library}.a"));
    println!("cargo:rustc-link-search=native={}", folder.display());
    println!("cargo:rerun-if-changed={}", archive.display());
    assert!(
        archive.is_file(),
        "{} is missing: run `rt lib` in crates/{library}",
        archive.display()
    );
    println!("cargo:rustc-link-lib=static={library}");
}

fn default_folder(library: &str) -> PathBuf {
    let crates = Path::new(env!("CARGO_MANIFEST_DIR")).join("../../crates");
    crates.join(library).join("out")
}
