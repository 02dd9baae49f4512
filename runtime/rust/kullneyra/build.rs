//! Links the proved static library: from KULLNEYRA_LIB_DIR, or from the repository's target/staticlib.

use std::env;
use std::path::PathBuf;
use std::process::exit;

fn main() {
    let folder = env::var_os("KULLNEYRA_LIB_DIR").map(PathBuf::from).unwrap_or_else(|| {
        let here = PathBuf::from(env::var_os("CARGO_MANIFEST_DIR").expect("cargo sets it"));
        here.join("../../../target/staticlib")
    });
    let library = folder.join("libkullneyra.a");
    println!("cargo:rerun-if-env-changed=KULLNEYRA_LIB_DIR");
    println!("cargo:rerun-if-changed={}", library.display());
    if !library.is_file() {
        eprintln!("{} is not there.", library.display());
        eprintln!("`make library` makes it in the repository (in target/staticlib).");
        eprintln!("Where it stands elsewhere, KULLNEYRA_LIB_DIR names its folder.");
        exit(1);
    }
    println!("cargo:rustc-link-search=native={}", folder.display());
    println!("cargo:rustc-link-lib=static=kullneyra");
}
