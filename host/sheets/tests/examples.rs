//! The sheets of `examples/`: the program and the oracle both print the output that stands beside
//! each of them, and each has a comment file.

use std::fs;
use std::path::{Path, PathBuf};

use oracle::sheet::sheet;
use sheets::compare;

/// The folder of examples.
fn folder() -> PathBuf {
    Path::new(env!("CARGO_MANIFEST_DIR")).join("../../examples")
}

/// The names of the sheets in it, without their ending.
fn names() -> Vec<String> {
    let entries = fs::read_dir(folder()).expect("the folder of examples");
    let paths = entries.map(|entry| entry.expect("an entry").path());
    let sheets = paths.filter(|path| path.extension().is_some_and(|e| e == "sheet"));
    sheets
        .map(|path| path.file_stem().expect("a name").to_string_lossy().into())
        .collect()
}

/// The bytes of a file of the folder.
fn bytes(name: &str, ending: &str) -> Vec<u8> {
    let path = folder().join(format!("{name}.{ending}"));
    fs::read(&path).unwrap_or_else(|error| panic!("{}: {error}", path.display()))
}

/// A text of the folder.
fn text(name: &str, ending: &str) -> String {
    String::from_utf8(bytes(name, ending)).unwrap_or_else(|error| panic!("{name}: {error}"))
}

#[test]
fn every_sheet_prints_the_output_beside_it() {
    let names = names();
    assert_eq!(names.len(), 6, "{names:?}");
    for name in names {
        let input = bytes(&name, "sheet");
        let expected = bytes(&name, "out");
        let printed = sheets::run(&input).expect("the program runs");
        compare(&name, &printed, &expected);
        compare(&format!("{name}, oracle"), &sheet(&input), &expected);
    }
}

#[test]
fn every_sheet_has_a_comment_file() {
    for name in names() {
        let first = format!("# {name}.sheet\n");
        assert!(text(&name, "md").starts_with(&first), "{name}");
    }
}

/// The lines that input lines `from` to `to` print, with `shift` taken off the line number.
fn printed_by(output: &str, from: u32, to: u32, shift: u32) -> Vec<String> {
    let mut lines = Vec::new();
    for line in output.lines().skip(1) {
        let (number, rest) = line.split_once(' ').expect("fields");
        let number: u32 = number.parse().expect("a line number");
        if (from..=to).contains(&number) {
            lines.push(format!("{} {rest}", number - shift));
        }
    }
    lines
}

/// What the comment file says of the two rounds of listings.
#[test]
fn a_long_mix_leads_to_the_state_of_its_tasks() {
    let output = text("long-mix", "out");
    let mixed = printed_by(&output, 551, 580, 0);
    assert_eq!(mixed.len(), 22);
    assert_eq!(mixed, printed_by(&output, 617, 646, 66));
}
