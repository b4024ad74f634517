//! Links the archives that `tools/archives` writes.

use std::path::Path;

fn main() {
    let root = Path::new(env!("CARGO_MANIFEST_DIR")).join("../..");
    let folder = root.join("target/staticlib");
    println!("cargo:rustc-link-search=native={}", folder.display());
    for name in ["host", "desk", "sheet_desk"] {
        let archive = folder.join(format!("lib{name}.a"));
        println!("cargo:rerun-if-changed={}", archive.display());
        assert!(archive.exists(), "there is no archive: run `tools/archives` first");
        println!("cargo:rustc-link-lib=static={name}");
    }
}
