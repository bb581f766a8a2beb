//! Finds the static archive of the proved library and has it linked.

use std::env;
use std::path::PathBuf;

/// The variable that names the archive's folder, where it is not the repository's own.
const FOLDER: &str = "WALLARNICA_LIB_DIR";

/// The folder that the variable names, or the one in which `./archive` builds.
fn folder() -> PathBuf {
    let package = env::var_os("CARGO_MANIFEST_DIR").map(PathBuf::from);
    let package = package.unwrap_or_default();
    match env::var_os(FOLDER).filter(|named| !named.is_empty()) {
        // A relative path is taken from this package, as the default is.
        Some(named) => package.join(named),
        None => package.join("../../target/staticlib"),
    }
}

fn main() {
    let folder = folder();
    let archive = folder.join("libcard.a");
    println!("cargo::rerun-if-changed=build.rs");
    println!("cargo::rerun-if-env-changed={FOLDER}");
    println!("cargo::rerun-if-changed={}", archive.display());
    if !archive.is_file() {
        println!(
            "cargo::error={} is missing: run `./archive` in the root of the repository first, \
             or set {FOLDER} to the whole path of the folder that has libcard.a",
            archive.display()
        );
        return;
    }
    println!("cargo::rustc-link-search=native={}", folder.display());
    println!("cargo::rustc-link-lib=static=card");
    // For the test of the C header, which links the same archive.
    println!("cargo::rustc-env=CARD_ARCHIVE={}", archive.display());
}
