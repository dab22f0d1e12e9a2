//! Links the static library of the proved checksum, and hands on which compiler builds the program, for the
//! report to name it.

use std::env;
use std::path::Path;
use std::process::Command;

fn main() {
    println!("cargo:rerun-if-changed=build.rs");
    println!("cargo:rerun-if-env-changed=RUSTC");
    let rustc = env::var_os("RUSTC").expect("cargo sets RUSTC");
    let said = Command::new(rustc).arg("--version").output().expect("the compiler runs");
    println!("cargo:rustc-env=BUILT_BY={}", String::from_utf8_lossy(&said.stdout).trim());
    link_checksum();
}

fn link_checksum() {
    let manifest = env::var_os("CARGO_MANIFEST_DIR").expect("cargo sets CARGO_MANIFEST_DIR");
    let dir = Path::new(&manifest).join("../crates/test_checksum_export/out");
    let library = dir.join("libtest_checksum_export.a");
    println!("cargo:rerun-if-changed={}", library.display());
    assert!(
        library.is_file(),
        "{} is missing: `rt lib`, run in crates/test_checksum_export, makes it.",
        library.display()
    );
    println!("cargo:rustc-link-search=native={}", dir.display());
    println!("cargo:rustc-link-lib=static=test_checksum_export");
}
