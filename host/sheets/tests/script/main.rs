//! The script `./sheet`: what it builds, and what it says where something fails.

mod builds;
mod faults;

use std::ops::Deref;
use std::path::{Path, PathBuf};
use std::{env, fs, process};

/// Programs and sources that take the place of others.
fn stand_ins() -> PathBuf {
    Path::new(env!("CARGO_MANIFEST_DIR")).join("tests/script/stand-ins")
}

/// A repository of its own for a test. It lies outside this one, in which the gate wants no other, and goes with the test.
struct Repository(PathBuf);

impl Deref for Repository {
    type Target = Path;

    fn deref(&self) -> &Path {
        &self.0
    }
}

impl Drop for Repository {
    fn drop(&mut self) {
        let _ = fs::remove_dir_all(&self.0);
    }
}

/// One with the script in it, nothing built, and one sheet in a folder of it.
fn repository(name: &str, sheet: &str) -> Repository {
    let package = Path::new(env!("CARGO_MANIFEST_DIR"));
    let folder = format!("wallarnica-sheet-{}-{name}", process::id());
    let top = env::temp_dir().join(folder);
    let _ = fs::remove_dir_all(&top);
    fs::create_dir_all(top.join("crates/sheet")).expect("a new folder");
    fs::create_dir_all(top.join("sheets")).expect("a new folder");
    fs::write(top.join("crates.txt"), "sheet:\n").expect("a new file");
    fs::write(top.join("sheets/one"), sheet).expect("a new file");
    fs::copy(package.join("../../sheet"), top.join("sheet")).expect("the script");
    Repository(top)
}
