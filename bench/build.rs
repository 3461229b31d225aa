//! Links the archive that LNIANOTKA_ARCHIVE names.

use std::path::PathBuf;

fn main() {
    println!("cargo:rerun-if-env-changed=LNIANOTKA_ARCHIVE");
    let named = std::env::var_os("LNIANOTKA_ARCHIVE").expect("LNIANOTKA_ARCHIVE names no archive");
    let archive = PathBuf::from(named);
    println!("cargo:rerun-if-changed={}", archive.display());
    println!("cargo:rustc-link-arg-bins={}", archive.display());
}
