//! Links the proved functions, which `rt lib` writes in crates/capi to out/libcapi.a.

use std::path::Path;

/// Names the archive to the linker; fails where it is missing.
fn main() {
    let folder = Path::new(env!("CARGO_MANIFEST_DIR")).join("../../crates/capi/out");
    let archive = folder.join("libcapi.a");
    println!("cargo:rerun-if-changed={}", archive.display());
    assert!(
        archive.exists(),
        "{} is missing: run `rt lib` in crates/capi",
        archive.display()
    );
    println!("cargo:rustc-link-search=native={}", folder.display());
    println!("cargo:rustc-link-lib=static=capi");
}
