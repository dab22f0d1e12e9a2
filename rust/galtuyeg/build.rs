//! Links the static library of the proved calls, libcapi.a.

use std::env;
use std::path::{Path, PathBuf};

const LIB_DIR: &str = "GALTUYEG_LIB_DIR";

fn main() {
    println!("cargo:rerun-if-env-changed={LIB_DIR}");
    let dir = library_dir();
    let library = dir.join("libcapi.a");
    println!("cargo:rerun-if-changed={}", library.display());
    assert!(
        library.is_file(),
        "{} is missing: `rt lib`, run in crates/capi, makes it. \
         Where it is elsewhere, {LIB_DIR} names its directory, from / on or from rust/galtuyeg.",
        library.display()
    );
    println!("cargo:rustc-link-search=native={}", dir.display());
    println!("cargo:rustc-link-lib=static=capi");
}

/// The linker runs elsewhere, so the path is made whole.
fn library_dir() -> PathBuf {
    let manifest = env::var_os("CARGO_MANIFEST_DIR").expect("cargo sets CARGO_MANIFEST_DIR");
    let manifest = Path::new(&manifest);
    let dir = match env::var_os(LIB_DIR) {
        Some(named) => manifest.join(named),
        None => manifest.join("../../crates/capi/out"),
    };
    dir.canonicalize().unwrap_or(dir)
}
