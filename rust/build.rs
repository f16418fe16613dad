//! Finds the proved library `libretake_c.a`, which `examples/build retake_c` writes.

use std::env;
use std::path::PathBuf;

fn main() {
    println!("cargo:rerun-if-env-changed=RETAKE_LIB_DIR");
    let beside = PathBuf::from(env::var_os("CARGO_MANIFEST_DIR").unwrap()).join("../target/staticlib");
    let folder = env::var_os("RETAKE_LIB_DIR").map_or(beside, PathBuf::from);
    let library = folder.join("libretake_c.a");
    println!("cargo:rerun-if-changed={}", library.display());
    if !library.exists() {
        eprintln!("{} is missing.", library.display());
        eprintln!(
            "Run `examples/build retake_c` at the repository's top, or set RETAKE_LIB_DIR to the folder that has it."
        );
        std::process::exit(1);
    }
    println!("cargo:rustc-link-search=native={}", folder.display());
    println!("cargo:rustc-link-lib=static:-bundle=retake_c");
}
