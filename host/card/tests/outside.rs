//! The crate outside the repository, without the standard library: its sources copied, the archive's folder named by the variable.

use std::fs;
use std::path::{Path, PathBuf};
use std::process::{Command, Output};

const FOLDER: &str = "WALLARNICA_LIB_DIR";

const MANIFEST: &str = r#"
[package]
name = "program"
version = "0.1.0"
edition = "2021"

[dependencies]
card = { path = "../card", default-features = false }

[profile.release]
panic = "abort"
lto = true

# It belongs to no workspace above it.
[workspace]
"#;

/// Copies the files of a folder into another, which is made.
fn copy(from: &Path, to: &Path) {
    fs::create_dir_all(to).expect("a folder");
    for entry in fs::read_dir(from).expect("a folder") {
        let file = entry.expect("an entry").path();
        if file.is_file() {
            let name = file.file_name().expect("a name");
            fs::copy(&file, to.join(name)).expect("a copy");
        }
    }
}

/// Lays out the crate, the archive and a program that uses them, in a new folder.
fn lay_out() -> PathBuf {
    let package = Path::new(env!("CARGO_MANIFEST_DIR"));
    let top = Path::new(env!("CARGO_TARGET_TMPDIR")).join("outside");
    if top.exists() {
        fs::remove_dir_all(&top).expect("an old folder");
    }
    copy(package, &top.join("card"));
    copy(&package.join("src"), &top.join("card/src"));
    let source = top.join("program/src");
    fs::create_dir_all(&source).expect("a folder");
    fs::copy(
        package.join("tests/outside/program.rs"),
        source.join("main.rs"),
    )
    .expect("a copy");
    fs::write(top.join("program/Cargo.toml"), MANIFEST).expect("a manifest");
    fs::create_dir_all(top.join("lib")).expect("a folder");
    fs::copy(env!("CARD_ARCHIVE"), top.join("lib/libcard.a")).expect("a copy");
    top
}

/// Builds the program, with the archive's folder named or not.
fn build(top: &Path, folder: Option<&Path>) -> Output {
    let mut cargo = Command::new(env!("CARGO"));
    cargo
        .args(["build", "--release", "--offline", "--target-dir"])
        .arg(top.join("target"))
        .current_dir(top.join("program"))
        .env_remove(FOLDER);
    if let Some(folder) = folder {
        cargo.env(FOLDER, folder);
    }
    cargo.output().expect("cargo runs")
}

#[test]
fn a_program_outside_the_repository() {
    let top = lay_out();
    // Nothing is found, and the message names the variable.
    let lost = build(&top, None);
    let said = String::from_utf8_lossy(&lost.stderr);
    assert!(!lost.status.success() && said.contains(FOLDER), "{said}");
    // The variable is noticed without anything else being changed.
    let built = build(&top, Some(&top.join("lib")));
    let said = String::from_utf8_lossy(&built.stderr);
    assert!(built.status.success(), "{said}");
    let run = Command::new(top.join("target/release/program")).status();
    assert_eq!(run.expect("the program runs").code(), Some(7));
    // So is another value of it, also after a build that went well.
    let lost = build(&top, Some(&top.join("nowhere")));
    let said = String::from_utf8_lossy(&lost.stderr);
    assert!(!lost.status.success() && said.contains("nowhere"), "{said}");
}
