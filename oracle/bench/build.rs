//! Links the calls by value, where `oracle/run --bench` has built them.

use std::path::Path;

fn main() {
    println!("cargo::rustc-check-cfg=cfg(by_value)");
    let folder = Path::new(&std::env::var("CARGO_MANIFEST_DIR").unwrap()).join("../../target/staticlib");
    let library = folder.join("libby_value.a");
    println!("cargo::rerun-if-changed={}", library.display());
    if library.is_file() {
        println!("cargo::rustc-cfg=by_value");
        println!("cargo::rustc-link-search=native={}", folder.display());
        println!("cargo::rustc-link-lib=static=by_value");
    }
}
