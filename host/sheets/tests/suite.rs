//! The sheet program on the cases of `cases/`, one for each rule of a sheet and each refusal that a
//! sheet can reach, and on random sheets, compared with the oracle.

use std::fs;
use std::path::{Path, PathBuf};

use oracle::arbitrary::sheet_bytes;
use oracle::rng::Rng;
use oracle::sheet::sheet;
use sheets::compare;

/// The sheets of the folder, in the order of their names.
fn cases() -> Vec<PathBuf> {
    let folder = Path::new(env!("CARGO_MANIFEST_DIR")).join("cases");
    let entries = fs::read_dir(folder).expect("the folder of cases");
    let paths = entries.map(|entry| entry.expect("an entry").path());
    let mut sheets: Vec<PathBuf> = paths
        .filter(|path| path.extension().is_some_and(|e| e == "sheet"))
        .collect();
    sheets.sort();
    sheets
}

/// What the program prints.
fn printed(input: &[u8]) -> Vec<u8> {
    sheets::run(input).expect("the program runs")
}

#[test]
fn every_case_prints_its_output() {
    let cases = cases();
    assert!(cases.len() >= 45, "{} cases", cases.len());
    for path in cases {
        let input = fs::read(&path).expect("a sheet");
        let expected = fs::read(path.with_extension("out")).expect("its output");
        compare(&path.display().to_string(), &printed(&input), &expected);
    }
}

#[test]
fn the_oracle_prints_the_same_for_every_case() {
    for path in cases() {
        let input = fs::read(&path).expect("a sheet");
        let expected = fs::read(path.with_extension("out")).expect("its output");
        compare(&path.display().to_string(), &sheet(&input), &expected);
    }
}

#[test]
fn random_sheets_print_what_the_oracle_prints() {
    let mut rng = Rng::new(2026);
    for index in 0..600 {
        let input = sheet_bytes(&mut rng);
        compare(&format!("sheet {index}"), &printed(&input), &sheet(&input));
    }
}

#[test]
fn random_bytes_print_what_the_oracle_prints() {
    let mut rng = Rng::new(2027);
    for index in 0..200 {
        let length = rng.below(400);
        let input: Vec<u8> = (0..length).map(|_| rng.byte()).collect();
        compare(&format!("bytes {index}"), &printed(&input), &sheet(&input));
    }
}
