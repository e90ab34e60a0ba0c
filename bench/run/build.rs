//! Links the proved functions, which `rt lib` writes in crates/rounds to out/librounds.a.

use std::path::Path;

fn main() {
    let folder = Path::new(env!("CARGO_MANIFEST_DIR")).join("../../crates/rounds/out");
    let archive = folder.join("librounds.a");
    println!("cargo:rerun-if-changed={}", archive.display());
    assert!(
        archive.exists(),
        "{} is missing: run `rt lib` in crates/rounds",
        archive.display()
    );
    println!("cargo:rustc-link-search=native={}", folder.display());
    println!("cargo:rustc-link-lib=static=rounds");
}
