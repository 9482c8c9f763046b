//! Links the static library of the proved code, where it has been built (`tools/library`).

use std::env;
use std::path::{Path, PathBuf};

fn main() {
    println!("cargo::rustc-check-cfg=cfg(linked)");
    println!("cargo::rerun-if-env-changed=CAPI_LIB");
    let folder: PathBuf = match env::var_os("CAPI_LIB") {
        Some(folder) => folder.into(),
        None => Path::new(&env::var("CARGO_MANIFEST_DIR").unwrap()).join("../../target/staticlib"),
    };
    let library = folder.join("libcapi.a");
    println!("cargo::rerun-if-changed={}", library.display());
    if library.is_file() {
        println!("cargo::rustc-cfg=linked");
        println!("cargo::rustc-link-search=native={}", folder.display());
        println!("cargo::rustc-link-lib=static=capi");
    } else {
        println!("cargo::warning=libcapi.a is absent: our library is not linked");
    }
}
