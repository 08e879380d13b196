// Links the proved library, the one place where that is said: crates that depend on this one need no build script for
// it.
//
// The archive is target/staticlib/libpealvixen.a; `rust/archive` writes it. PEALVIXEN_ARCHIVE names another folder.

use std::env;
use std::path::{Path, PathBuf};

fn main() {
    println!("cargo:rerun-if-env-changed=PEALVIXEN_ARCHIVE");
    println!("cargo:rerun-if-changed=build.rs");
    let folder = folder();
    let archive = folder.join("libpealvixen.a");
    println!("cargo:rerun-if-changed={}", archive.display());
    assert!(
        archive.is_file(),
        "{} is not there; `rust/archive` in the project's folder writes it",
        archive.display()
    );
    println!("cargo:rustc-link-search=native={}", folder.display());
    println!("cargo:rustc-link-lib=static=pealvixen");
}

fn folder() -> PathBuf {
    if let Some(folder) = env::var_os("PEALVIXEN_ARCHIVE") {
        return PathBuf::from(folder);
    }
    let here = env::var("CARGO_MANIFEST_DIR").expect("cargo says where the crate is");
    Path::new(&here).join("../../target/staticlib")
}
