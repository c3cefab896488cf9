//! Links libexport.a, from the folder that LIMBO_SHEET_LIB names, an absolute path, or from the repository's crates/export/out.
use std::env;
use std::path::PathBuf;

fn main() {
    let beside = || {
        PathBuf::from(env::var_os("CARGO_MANIFEST_DIR").unwrap()).join("../../crates/export/out")
    };
    let folder = env::var_os("LIMBO_SHEET_LIB").map_or_else(beside, PathBuf::from);
    println!("cargo:rerun-if-env-changed=LIMBO_SHEET_LIB");
    // A build script runs in its crate's folder and the linker in another.
    assert!(
        folder.is_absolute(),
        "LIMBO_SHEET_LIB must be an absolute path, and is {:?}",
        folder
    );
    let library = folder.join("libexport.a");
    assert!(
        library.exists(),
        "{} is not there: `rt lib` in crates/export writes crates/export/out/libexport.a, and LIMBO_SHEET_LIB names its folder where it lies elsewhere",
        library.display()
    );
    println!("cargo:rerun-if-changed={}", library.display());
    println!("cargo:rustc-link-search=native={}", folder.display());
    println!("cargo:rustc-link-lib=static=export");
}
