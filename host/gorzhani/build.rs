//! Links the proved library, which `rt lib` writes in the folder of its crate.
use std::path::Path;

fn main() {
    let here = std::env::var("CARGO_MANIFEST_DIR").expect("cargo sets the manifest's folder");
    let folder = Path::new(&here).join("../../crates/gorzhani/out");
    let archive = folder.join("libgorzhani.a");
    println!("cargo::rerun-if-changed={}", archive.display());
    if !archive.is_file() {
        println!(
            "cargo::error=the proved library isn't there: `rt lib`, in the repository's folder \
             crates/gorzhani, writes out/libgorzhani.a"
        );
        return;
    }
    println!("cargo::rustc-link-search=native={}", folder.display());
    println!("cargo::rustc-link-lib=static=gorzhani");
}
