//! The memory of the sheet program: on the heaviest sheets it runs on the stack that the README states, and takes no
//! other memory.

use std::os::unix::process::ExitStatusExt;
use std::process::{Command, Output};

use oracle::sheet::sheet;
use sheets::{compare, ended_well};

/// What the program needs at most, in KiB: its frames take most of it, and the rest is for the loader and for what
/// the system puts above them.
const STACK: usize = 512;

/// Less than the input, the card and a listing take.
const TOO_LITTLE: usize = 64;

/// Room for what the loader and the C library take, in KiB, and for no heap: the least that the allocator asks the
/// system for is more than is left.
const DATA: usize = 176;

/// The signal that ends a program whose stack has run out.
const SEGMENTATION_FAULT: i32 = 11;

/// What the program does with a sheet on a stack of so many KiB.
fn run(stack: usize, sheet: &[u8]) -> Output {
    run_in("-s", stack, sheet)
}

/// What the program does with a sheet in so many KiB of what a letter of `ulimit` names.
fn run_in(what: &str, limit: usize, sheet: &[u8]) -> Output {
    let mut command = Command::new("sh");
    command
        .args(["-c", "ulimit \"$0\" \"$1\" && exec \"$2\""])
        .arg(what)
        .arg(limit.to_string())
        .arg(sheets::program())
        .env_clear();
    sheets::feed(&mut command, sheet).expect("a shell runs")
}

/// The first three lines of a sheet with the greatest device, six columns of logic in each eight.
fn head() -> String {
    let kinds = "CCCBCCCD".repeat(8);
    format!("rows kinds\n128 {kinds}\ncall task column kind bottom top\n")
}

/// The lines of a draft of 32 blocks, one cell apart in one column.
fn comb() -> String {
    let block = |index| format!("B 0 0 C {} {}\n", 4 * index, 4 * index + 2);
    (0..32).map(block).collect()
}

/// A sheet that places 64 combs, two in each column of logic, with every call on the way.
fn combs() -> String {
    let mut text = head() + &comb();
    let logic = (0..64).filter(|column| !matches!(column % 8, 3 | 7));
    let places = logic.flat_map(|column| [(column, 0), (column, 128)]);
    for (index, (column, bottom)) in places.take(64).enumerate() {
        text += &format!("P {} {column} - {bottom} 0\n", 65_000 - index);
    }
    for call in ["L", "C", "P 1", "R 1", "R 65000"] {
        let (letter, number) = call.split_once(' ').unwrap_or((call, "0"));
        text += &format!("{letter} {number} 0 - 0 0\n");
    }
    text += "N 0 0 - 0 0\nB 0 0 C 0 2\nL 0 0 - 0 0\nC 0 0 - 0 0\n";
    text
}

#[test]
fn the_heaviest_sheets_run_in_it() {
    let combs = combs();
    let listings = head() + "B 0 0 C 0 2\n" + &"L 0 0 - 0 0\n".repeat(2_000);
    let faults = head() + &"x\n".repeat(16_000);
    let longer = "\n".repeat(40_000);
    for text in [combs, listings, faults, longer, String::new()] {
        let printed = ended_well(run(STACK, text.as_bytes())).expect("it runs");
        compare(&format!("{text:.100}"), &printed, &sheet(text.as_bytes()));
    }
}

#[test]
fn it_takes_no_memory_but_its_stack() {
    for text in [combs(), "\n".repeat(40_000), String::new()] {
        let printed = ended_well(run_in("-d", DATA, text.as_bytes())).expect("it runs");
        compare(&format!("{text:.100}"), &printed, &sheet(text.as_bytes()));
    }
}

#[test]
fn the_limit_is_kept() {
    let run = run(TOO_LITTLE, head().as_bytes());
    assert_eq!(run.status.signal(), Some(SEGMENTATION_FAULT));
}

#[test]
fn the_readme_states_the_limit() {
    let readme = include_str!("../../../README.md");
    let figure = format!("{STACK} KiB");
    assert!(readme.contains(&figure), "README has no {figure}");
}
