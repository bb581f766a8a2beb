//! The script with an `rt` that stands in for the kit's and builds a program that prints its input:
//! the file is looked at before anything is built, and the script works from any folder and through a link.

use std::env;
use std::os::unix::fs::symlink;
use std::path::Path;
use std::process::{Command, Output};

use crate::Repository;

const SHEET: &str = "rows kinds\n";

/// A repository in which nothing is built, with a sheet.
fn repository(name: &str) -> Repository {
    crate::repository(name, SHEET)
}

/// Runs the script by a path, in the folder of sheets, with words.
fn run(top: &Path, script: &Path, words: &[&str]) -> Output {
    let stand_ins = crate::stand_ins();
    let mut path = vec![stand_ins];
    path.extend(env::split_paths(&env::var_os("PATH").expect("a PATH")));
    Command::new("bash")
        .arg(script)
        .args(words)
        .current_dir(top.join("sheets"))
        .env("PATH", env::join_paths(path).expect("a PATH"))
        .output()
        .expect("the script runs")
}

/// Whether something was built.
fn built(top: &Path) -> bool {
    top.join("target/bin/sheet").exists()
}

#[test]
fn a_missing_file_ends_it_before_anything_is_built() {
    let top = repository("missing");
    let run = run(&top, &top.join("sheet"), &["two"]);
    assert_eq!(run.status.code(), Some(2));
    assert_eq!(run.stderr, b"sheet: two is not there\n");
    assert!(run.stdout.is_empty() && !built(&top));
}

#[test]
fn wrong_words_end_it_before_anything_is_built() {
    let top = repository("words");
    for words in [&["-x"][..], &["one", "one"]] {
        let run = run(&top, &top.join("sheet"), words);
        assert_eq!(run.status.code(), Some(2));
        assert_eq!(run.stderr, b"usage: ./sheet [FILE]\n");
    }
    assert!(!built(&top));
}

#[test]
fn it_says_that_it_builds_and_builds_once() {
    let top = repository("once");
    let first = run(&top, &top.join("sheet"), &["one"]);
    assert_eq!(first.stdout, SHEET.as_bytes());
    assert!(first.stderr.starts_with(b"sheet: proving and building"));
    let second = run(&top, &top.join("sheet"), &["one"]);
    assert_eq!(second.stdout, SHEET.as_bytes());
    assert!(second.stderr.is_empty());
}

#[test]
fn it_works_through_a_link() {
    let top = repository("link");
    let link = top.join("sheets/link");
    symlink("../sheet", &link).expect("a link");
    let run = run(&top, &link, &["one"]);
    assert_eq!(run.stdout, SHEET.as_bytes());
    assert!(run.status.success() && built(&top));
}
