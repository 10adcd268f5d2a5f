//! Links the static library of the C interface.

use std::path::Path;

fn main() {
    let package = std::env::var("CARGO_MANIFEST_DIR").unwrap();
    let folder = Path::new(&package).join("../target/staticlib");
    let library = folder.join("libcapi.a");
    println!("cargo::rerun-if-changed=build.rs");
    println!("cargo::rerun-if-changed={}", library.display());
    if !library.exists() {
        // `cargo check` needs no library; whatever is linked does, and fails.
        println!("cargo::warning=target/staticlib/libcapi.a is missing: run `tools/build` first, in the root of the repository");
    }
    println!("cargo::rustc-link-search=native={}", folder.display());
    println!("cargo::rustc-link-lib=static=capi");
}
