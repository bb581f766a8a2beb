//! Reads and writes that fail: a message on standard error, and status 1 from `./sheet`. A failed read is never the end of the input.

use std::fs::{self, File};
use std::path::{Path, PathBuf};
use std::process::{Command, Output, Stdio};

use oracle::sheet::sheet;

use crate::Repository;

/// A sheet that is right, with a line for each range of an empty card.
const SHEET: &str =
    "rows kinds\n5 CCB\ncall task column kind bottom top\nB 0 0 C 0 2\nL 0 0 - 0 0\n";

/// A repository with the built program, which is newer than its sources, and the sheet.
fn repository(name: &str) -> Repository {
    let top = crate::repository(name, SHEET);
    fs::create_dir_all(top.join("target/bin")).expect("a new folder");
    fs::copy(sheets::program(), top.join("target/bin/sheet")).expect("the program is built");
    top
}

/// Runs the script in its repository with a word, which may be a redirection, by a shell.
fn run(top: &Path, words: &str, output: Stdio) -> Output {
    let child = Command::new("sh")
        .args(["-c", &format!("exec ../sheet {words}")])
        .current_dir(top.join("sheets"))
        .stdin(Stdio::null())
        .stdout(output)
        .stderr(Stdio::piped())
        .spawn()
        .expect("a shell runs");
    child.wait_with_output().expect("its output")
}

/// The run ended with status 1 and this message, and printed nothing.
fn failed(run: &Output, message: &str) {
    let said = String::from_utf8_lossy(&run.stderr);
    assert_eq!(said, message);
    assert_eq!(run.status.code(), Some(1), "{message}");
    assert!(run.stdout.is_empty(), "{message}");
}

#[test]
fn a_sheet_without_a_fault_ends_with_status_0() {
    let top = repository("right");
    for words in ["one", "<one"] {
        let run = run(&top, words, Stdio::piped());
        assert!(run.status.success() && run.stderr.is_empty());
        assert_eq!(run.stdout, sheet(SHEET.as_bytes()));
    }
}

#[test]
fn a_folder_cannot_be_read() {
    let top = repository("folder");
    let message = "sheet: standard input: Is a directory\n";
    failed(&run(&top, ".", Stdio::piped()), message);
    failed(&run(&top, "<.", Stdio::piped()), message);
}

#[test]
fn closed_ends_are_not_taken_for_others() {
    let top = repository("closed");
    let input = run(&top, "<&-", Stdio::piped());
    failed(&input, "sheet: standard input is closed\n");
    let output = run(&top, "one >&-", Stdio::piped());
    failed(&output, "sheet: standard output is closed\n");
}

#[test]
fn a_full_device_cannot_be_written() {
    let top = repository("full");
    let full = File::options()
        .write(true)
        .open("/dev/full")
        .expect("the full device");
    let run = run(&top, "one", full.into());
    failed(&run, "sheet: standard output: No space left on device\n");
}

#[test]
fn a_pipe_that_nobody_reads_cannot_be_written() {
    let top = repository("pipe");
    let (reader, writer) = std::io::pipe().expect("a pipe");
    drop(reader);
    let run = run(&top, "one", writer.into());
    failed(&run, "sheet: standard output: Broken pipe\n");
}

/// Compiles `stand-ins/read.c`, whose `read` takes the place of the C library's.
fn reads(name: &str) -> PathBuf {
    let source = crate::stand_ins().join("read.c");
    let library = Path::new(env!("CARGO_TARGET_TMPDIR")).join(format!("read-{name}.so"));
    let status = Command::new("gcc")
        .args(["-shared", "-fPIC", "-Wall", "-Werror", "-o"])
        .args([&library, &source])
        .arg(format!("-D{name}"))
        .status()
        .expect("gcc runs");
    assert!(status.success());
    library
}

/// The program with such a `read`, on the sheet.
fn run_with(library: &Path) -> Output {
    let mut program = Command::new(sheets::program());
    sheets::feed(program.env("LD_PRELOAD", library), SHEET.as_bytes()).expect("the program runs")
}

#[test]
fn an_interrupted_read_is_not_the_end_of_the_input() {
    let run = run_with(&reads("INTERRUPTED"));
    assert_eq!(
        run.stderr,
        b"sheet: standard input: Interrupted system call\n"
    );
    assert!(run.stdout.is_empty());
}

#[test]
fn an_input_that_comes_byte_by_byte_is_read_to_its_end() {
    let run = run_with(&reads("BYTE_BY_BYTE"));
    let printed = sheets::ended_well(run).expect("it ends well");
    sheets::compare("byte by byte", &printed, &sheet(SHEET.as_bytes()));
}
