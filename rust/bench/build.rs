//! Links the proved static library `libhost_sums.a`. It is looked for in the
//! directory WURAKETOZO_LIB, or else where `make sums` writes it.

use std::env;
use std::path::PathBuf;

fn main() {
    let manifest = env::var_os("CARGO_MANIFEST_DIR")
        .map(PathBuf::from)
        .unwrap_or_default();
    let directory = match env::var_os("WURAKETOZO_LIB") {
        Some(directory) => PathBuf::from(directory),
        None => manifest.join("../../target/staticlib"),
    };
    let library = directory.join("libhost_sums.a");
    println!("cargo:rerun-if-env-changed=WURAKETOZO_LIB");
    println!("cargo:rerun-if-changed=build.rs");
    println!("cargo:rerun-if-changed={}", library.display());
    if !library.is_file() {
        println!(
            "cargo:warning={} is missing: make it with `make sums`, or name its directory in WURAKETOZO_LIB",
            library.display()
        );
    }
    println!("cargo:rustc-link-search=native={}", directory.display());
    println!("cargo:rustc-link-lib=static=host_sums");
}
