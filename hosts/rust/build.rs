//! Links the proved library: the one in the folder that SONDE_LIB_DIR names, or the repository's own.

use std::env;
use std::path::{Path, PathBuf};

/// `tests/library` of the repository writes the library here.
fn own() -> PathBuf {
    Path::new(env!("CARGO_MANIFEST_DIR")).join("../../target/staticlib")
}

fn main() {
    println!("cargo:rerun-if-env-changed=SONDE_LIB_DIR");
    let named = env::var_os("SONDE_LIB_DIR").filter(|folder| !folder.is_empty());
    let folder = named.map_or_else(own, PathBuf::from);
    let library = folder.join("libsonde.a");
    println!("cargo:rerun-if-changed={}", library.display());
    if !library.exists() {
        eprintln!(
            "{} is missing: run `tests/library` at the top of the repository, or set SONDE_LIB_DIR to the folder of an installed libsonde.a",
            library.display()
        );
        std::process::exit(1);
    }
    println!("cargo:rustc-link-search=native={}", folder.display());
    println!("cargo:rustc-link-lib=static=sonde");
}
