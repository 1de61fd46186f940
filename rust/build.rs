//! Links the proved library, which `tools/library` writes.

use std::path::Path;

fn main() {
    let package = std::env::var("CARGO_MANIFEST_DIR").expect("cargo names the package's folder");
    let folder = format!("{package}/../target/staticlib");
    let archive = format!("{folder}/libcapi.a");
    println!("cargo:rerun-if-changed={archive}");
    assert!(
        Path::new(&archive).exists(),
        "target/staticlib/libcapi.a is missing: run 'tools/library' in the repository first"
    );
    println!("cargo:rustc-link-search=native={folder}");
    println!("cargo:rustc-link-lib=static=capi");
}
