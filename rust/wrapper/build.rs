//! Says where the archive of the proved code is: in the folder that the variable LISKOBRAN_ARCHIVE_DIR
//! names, else where `.ci/archive` writes it in this repository.

#![forbid(unsafe_code)]

use std::env;
use std::path::{Path, PathBuf};

fn main() {
    let folder = match env::var_os("LISKOBRAN_ARCHIVE_DIR") {
        Some(named) => PathBuf::from(named),
        None => Path::new(env!("CARGO_MANIFEST_DIR")).join("../../target/staticlib"),
    };
    let archive = folder.join("libcapi.a");
    println!("cargo:rerun-if-env-changed=LISKOBRAN_ARCHIVE_DIR");
    println!("cargo:rerun-if-changed={}", archive.display());
    assert!(archive.exists(), "no {}: first run `.ci/archive`", archive.display());
    println!("cargo:rustc-link-search=native={}", folder.display());
    println!("cargo:rustc-link-lib=static=capi");
}
