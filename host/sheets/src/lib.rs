//! Runs the sheet program, `target/bin/sheet` of the repository, on a sheet, and compares what it
//! prints byte for byte.

#![deny(missing_docs)]
#![forbid(unsafe_code)]

use std::io::{self, Write};
use std::path::{Path, PathBuf};
use std::process::{Command, Output, Stdio};
use std::thread;

/// Where the program stands once `./sheet` or the gate has built it.
pub fn program() -> PathBuf {
    Path::new(env!("CARGO_MANIFEST_DIR")).join("../../target/bin/sheet")
}

/// What the program writes to standard output for a sheet on standard input.
///
/// An error says that the program is missing, that it did not end well, or that it wrote to
/// standard error.
pub fn run(sheet: &[u8]) -> io::Result<Vec<u8>> {
    let program = program();
    if !program.is_file() {
        let message = format!(
            "{} is missing: run `./sheet` or the gate first",
            program.display()
        );
        return Err(io::Error::new(io::ErrorKind::NotFound, message));
    }
    let output = feed(&mut Command::new(program), sheet)?;
    ended_well(output)
}

/// Runs a command with a sheet on standard input, and gives how it ended and all that it wrote.
pub fn feed(command: &mut Command, sheet: &[u8]) -> io::Result<Output> {
    let mut child = command
        .stdin(Stdio::piped())
        .stdout(Stdio::piped())
        .stderr(Stdio::piped())
        .spawn()?;
    let mut input = child.stdin.take().ok_or(io::ErrorKind::BrokenPipe)?;
    let bytes = sheet.to_vec();
    // Writing beside reading: neither side waits for the other. A program that stops reading early is no fault.
    let writer = thread::spawn(move || drop(input.write_all(&bytes)));
    let output = child.wait_with_output()?;
    let _ = writer.join();
    Ok(output)
}

/// What went to standard output, of a run that ended with status 0 and left standard error empty.
pub fn ended_well(output: Output) -> io::Result<Vec<u8>> {
    if !output.status.success() {
        return Err(io::Error::other(format!("it ended with {}", output.status)));
    }
    if !output.stderr.is_empty() {
        let said = output.stderr.escape_ascii();
        return Err(io::Error::other(format!("on standard error: {said}")));
    }
    Ok(output.stdout)
}

/// Says at which byte, and in which line of output, two outputs part; none where all bytes are equal.
pub fn parting(found: &[u8], expected: &[u8]) -> Option<String> {
    if found == expected {
        return None;
    }
    let same = found.iter().zip(expected).take_while(|(a, b)| a == b);
    let at = same.count();
    let line = 1 + found[..at].iter().filter(|&&byte| byte == b'\n').count();
    let (left, right) = (line_around(found, at), line_around(expected, at));
    Some(format!(
        "byte {at}, output line {line}: \"{left}\" and not \"{right}\" ({} bytes, not {})",
        found.len(),
        expected.len()
    ))
}

/// The line of an output in which a byte stands, its newline included, with all bytes made visible.
fn line_around(output: &[u8], at: usize) -> String {
    let newline = |byte: &u8| *byte == b'\n';
    let start = output[..at].iter().rposition(newline).map_or(0, |n| n + 1);
    let end = output[at..].iter().position(newline);
    let end = end.map_or(output.len(), |n| at + n + 1);
    output[start..end].escape_ascii().to_string()
}

/// Fails, and says where, unless two outputs are equal in every byte.
///
/// # Panics
/// Where they are not.
pub fn compare(name: &str, found: &[u8], expected: &[u8]) {
    if let Some(place) = parting(found, expected) {
        panic!("{name}: {place}");
    }
}
