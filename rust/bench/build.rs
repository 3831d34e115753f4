//! Where the variable LISKOBRAN_BEFORE names an earlier archive of the proved code, a copy of it is
//! linked beside today's, for `before.rs`. In the copy the function for listings has another name and
//! is the only one that is seen from outside, so that the two archives can be in one program. (An
//! archive is one object: nothing else in it needs those names.)

#![forbid(unsafe_code)]

use std::env;
use std::path::PathBuf;
use std::process::Command;

fn main() {
    println!("cargo:rustc-check-cfg=cfg(before)");
    println!("cargo:rerun-if-env-changed=LISKOBRAN_BEFORE");
    let Some(archive) = env::var_os("LISKOBRAN_BEFORE").map(PathBuf::from) else {
        return;
    };
    println!("cargo:rerun-if-changed={}", archive.display());
    assert!(archive.is_file(), "no {}, which LISKOBRAN_BEFORE names", archive.display());
    let folder = PathBuf::from(env::var_os("OUT_DIR").expect("cargo names a folder"));
    let copied = Command::new("objcopy")
        .arg("--redefine-sym=liskobran_listing_slice=liskobran_listing_slice_before")
        .arg("--keep-global-symbol=liskobran_listing_slice_before")
        .args([&archive, &folder.join("libcapi_before.a")])
        .status();
    assert!(copied.expect("objcopy is needed").success(), "objcopy fails");
    println!("cargo:rustc-link-search=native={}", folder.display());
    println!("cargo:rustc-link-lib=static=capi_before");
    println!("cargo:rustc-cfg=before");
}
