//! Links the proved functions, which `./make-library` writes to crates/capi/out/libcapi.a.

use std::path::Path;

fn main() {
    let folder = Path::new(env!("CARGO_MANIFEST_DIR")).join("../crates/capi/out");
    let archive = folder.join("libcapi.a");
    println!("cargo:rerun-if-changed={}", archive.display());
    assert!(
        archive.exists(),
        "{} is missing: run `./make-library` in the repository's root",
        archive.display()
    );
    println!("cargo:rustc-link-search=native={}", folder.display());
    println!("cargo:rustc-link-lib=static=capi");
}
