//! Links the static archive at the repository's root.

use std::path::Path;

fn main() {
    let root = Path::new(env!("CARGO_MANIFEST_DIR")).join("../..");
    let directory = root.join("crates/srom/out");
    let archive = directory.join("libsrom.a");
    println!("cargo::rerun-if-changed={}", archive.display());
    if !archive.is_file() {
        println!(
            "cargo::error=crates/srom/out/libsrom.a is missing: \
             run `rt lib` in crates/srom"
        );
        return;
    }
    println!("cargo::rustc-link-search=native={}", directory.display());
    println!("cargo::rustc-link-lib=static=srom");
}
