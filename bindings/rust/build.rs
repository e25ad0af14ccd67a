//! Links libdotenvy.a: from the folder that DOTENVY_LIB_DIR names, else from lib/ of this crate, as its package has it,
//! else from bindings/out of the repository.

use std::{env, path::PathBuf};

/// What the archive holds code for.
const ONLY_TARGET: &str = "x86_64-unknown-linux-gnu";

fn main() {
    println!("cargo:rerun-if-env-changed=DOTENVY_LIB_DIR");
    let target = env::var("TARGET").expect("cargo sets it");
    assert!(
        target == ONLY_TARGET,
        "libdotenvy.a has code for {}, and none for {}",
        ONLY_TARGET,
        target
    );
    let top = PathBuf::from(env::var_os("CARGO_MANIFEST_DIR").expect("cargo sets it"));
    let packed = top.join("lib");
    let folder = match env::var_os("DOTENVY_LIB_DIR") {
        Some(folder) => PathBuf::from(folder),
        None if packed.is_dir() => packed,
        None => top.join("../out"),
    };
    let archive = folder.join("libdotenvy.a");
    assert!(
        archive.is_file(),
        "{} is missing: bindings/build.sh builds it",
        archive.display()
    );
    println!("cargo:rerun-if-changed={}", archive.display());
    println!("cargo:rustc-link-search=native={}", folder.display());
    println!("cargo:rustc-link-lib=static=dotenvy");
}
