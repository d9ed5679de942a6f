//! Finds libz2z4.a: in the folder that Z2Z4_LIB_DIR names, else where the repository builds it.

use std::env;
use std::path::PathBuf;

fn main() {
    println!("cargo::rerun-if-env-changed=Z2Z4_LIB_DIR");
    let built = || PathBuf::from(env!("CARGO_MANIFEST_DIR")).join("../../../target/staticlib");
    let folder = env::var_os("Z2Z4_LIB_DIR").map_or_else(built, PathBuf::from);
    let library = folder.join("libz2z4.a");
    println!("cargo::rerun-if-changed={}", library.display());
    if !library.is_file() {
        println!(
            "cargo::error=there is no {}: `make library` builds it",
            library.display()
        );
        return;
    }
    println!("cargo::rustc-link-search=native={}", folder.display());
    println!("cargo::rustc-link-lib=static=z2z4");
    println!("cargo::metadata=library={}", library.display());
}
