//! Hands the version of the compiler to the program, which stores it with each run.

use std::env;
use std::process::Command;

fn main() {
    println!("cargo::rerun-if-changed=build.rs");
    let compiler = env::var_os("RUSTC").expect("cargo names the compiler");
    let output = Command::new(compiler).arg("--version").output();
    let output = output.expect("the compiler tells its version");
    let version = String::from_utf8_lossy(&output.stdout);
    let level = env::var("OPT_LEVEL").expect("cargo names the level");
    let compiler = format!("{}, opt-level {level}", version.trim());
    println!("cargo::rustc-env=BENCH_COMPILER={compiler}");
}
