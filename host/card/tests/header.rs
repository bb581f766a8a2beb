//! `host/card.h`: a C program that uses it compiles without a warning, as C and as C++, links, and prints what it must.

use std::path::{Path, PathBuf};
use std::process::Command;

use card::{Kind, Refusal};

const EXAMPLE: &str = "\
new 0
list 1
  column 0 first 4 step 10 last 4
place 0
list -9
list 3
  column 0 first 0 step 2 last 0
  column 0 first 6 step 2 last 6
  column 1 first 6 step 2 last 6
choose column 0 bottom 0
choose column 2 bottom 0
place 0
5 rows
column 0, kind 0: 6-10
column 1, kind 0: 0-2 6-10
column 2, kind 1: 0-5
task 7 at column 0 bottom 4: 0,0,0,2 1,0,-2,2 2,1,1,6
task 8 at column 0 bottom 0: 0,0,0,4
intervals 1
fragmentation 2, free 6, degree 2000
release -11
release 0
5 rows
column 0, kind 0: 4-10
column 1, kind 0: 0-10
column 2, kind 1: 0-10
task 8 at column 0 bottom 0: 0,0,0,4
";

const NULL_PARTS: &str = "\
new, record -1
new, kinds -3
new 0
place, record -1
place, task -4
release, record -1
list, record -1
list, task -4
list, output -6
choose, record -1
choose, task -4
intervals, record -1
fragmentation -1, free 0, degree 0
all of list -1
";

const WARNINGS: [&str; 4] = ["-Wall", "-Wextra", "-Werror", "-pedantic"];

/// Compiles and links `header.c`; a compiler that is missing is a failure.
fn build(compiler: &str, language: [&str; 2], name: &str) -> PathBuf {
    let package = Path::new(env!("CARGO_MANIFEST_DIR"));
    let program = Path::new(env!("CARGO_TARGET_TMPDIR")).join(name);
    let made = Command::new(compiler)
        .args(WARNINGS)
        .args(language)
        .arg("-I")
        .arg(package.join(".."))
        .arg(package.join("tests/header.c"))
        // From here on files are no longer taken for that language.
        .args(["-x", "none"])
        .arg(env!("CARD_ARCHIVE"))
        .arg("-o")
        .arg(&program)
        .output()
        .unwrap_or_else(|fault| panic!("{compiler} can't be run: {fault}"));
    let said = String::from_utf8_lossy(&made.stderr);
    assert!(made.status.success(), "{compiler} refuses it:\n{said}");
    program
}

/// What a program prints.
fn printed(program: &Path, words: &[&str]) -> String {
    let run = Command::new(program).args(words).output();
    let run = run.expect("the program runs");
    assert!(run.status.success(), "it ended with {}", run.status);
    String::from_utf8(run.stdout).expect("it prints text")
}

#[test]
fn the_example_through_c() {
    let program = build("gcc", ["-std=c99", "-xc"], "header-c");
    assert_eq!(printed(&program, &[]), EXAMPLE);
}

#[test]
fn the_example_through_c_plus_plus() {
    let program = build("g++", ["-std=c++11", "-xc++"], "header-cpp");
    assert_eq!(printed(&program, &[]), EXAMPLE);
}

#[test]
fn a_part_of_length_0_may_be_null() {
    let program = build("gcc", ["-std=c99", "-xc"], "header-null-parts");
    assert_eq!(printed(&program, &["null-parts"]), NULL_PARTS);
}

#[test]
fn the_enumerators_are_those_of_rust() {
    let program = build("gcc", ["-std=c99", "-xc"], "header-enumerators");
    let text = printed(&program, &["enumerators"]);
    let kinds = Kind::ALL.map(|kind| format!("CARD_KIND_{kind} {}", kind.byte()));
    let refusals =
        Refusal::ALL.map(|refusal| format!("{} {}", constant(refusal), refusal.number()));
    let found: Vec<&str> = text.lines().collect();
    assert_eq!(found, [&kinds[..], &refusals[..]].concat());
}

/// The header's name of a refusal: `OutputShort` is `CARD_OUTPUT_SHORT`.
fn constant(refusal: Refusal) -> String {
    let mut name = "CARD".to_string();
    for letter in format!("{refusal:?}").chars() {
        if letter.is_uppercase() {
            name.push('_');
        }
        name.push(letter.to_ascii_uppercase());
    }
    name
}
