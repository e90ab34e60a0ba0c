//! Links the proved functions, which `rt lib` writes in crates/leaves to out/libleaves.a.

use std::path::Path;

fn main() {
    let folder = Path::new(env!("CARGO_MANIFEST_DIR")).join("../../crates/leaves/out");
    let archive = folder.join("libleaves.a");
    println!("cargo:rerun-if-changed={}", archive.display());
    assert!(
        archive.exists(),
        "{} is missing: run `rt lib` in crates/leaves",
        archive.display()
    );
    println!("cargo:rustc-link-search=native={}", folder.display());
    println!("cargo:rustc-link-lib=static=leaves");
}
