//! Where the proved libraries lie: `RETAKE_LIB_DIR`, which `compare/run` sets.

fn main() {
    println!("cargo:rerun-if-env-changed=RETAKE_LIB_DIR");
    if let Ok(folder) = std::env::var("RETAKE_LIB_DIR") {
        println!("cargo:rustc-link-search=native={folder}");
    }
}
