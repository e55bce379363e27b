//! Links the store's static library, which `rt lib` in `crates/vandzulge` writes.

use std::path::{Path, PathBuf};

/// Names another folder that holds the library.
const VARIABLE: &str = "VANDZULGE_LIB_DIR";

fn main() {
    let crate_dir = PathBuf::from(std::env::var_os("CARGO_MANIFEST_DIR").expect("cargo sets CARGO_MANIFEST_DIR"));
    let folder = match std::env::var_os(VARIABLE) {
        Some(folder) => PathBuf::from(folder),
        None => Path::new("../../crates/vandzulge/out").to_path_buf(),
    };
    // what is relative is so to the crate, where cargo runs this
    let folder = crate_dir.join(folder);
    let library = folder.join("libvandzulge.a");
    println!("cargo:rerun-if-env-changed={VARIABLE}");
    println!("cargo:rerun-if-changed={}", library.display());
    if !library.is_file() {
        eprintln!("error: the store's static library is missing: {}", library.display());
        eprintln!("  make it with `rt lib`, in the repository's crates/vandzulge,");
        eprintln!("  or set {VARIABLE} to the folder that holds libvandzulge.a");
        std::process::exit(1);
    }
    println!("cargo:rustc-link-search=native={}", folder.display());
    println!("cargo:rustc-link-lib=static=vandzulge");
    // for the tests that link C programs with it
    println!("cargo:rustc-env={VARIABLE}={}", folder.display());
}
