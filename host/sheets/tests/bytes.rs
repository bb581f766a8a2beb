//! Outputs are compared byte for byte, and a run is judged by its status and its standard error too.

use std::process::Command;

use sheets::{ended_well, feed, parting};

/// Where two outputs part, which are not equal.
fn place(found: &[u8], expected: &[u8]) -> String {
    parting(found, expected).expect("they differ")
}

#[test]
fn equal_bytes_do_not_part() {
    assert_eq!(parting(b"", b""), None);
    assert_eq!(parting(b"a\n\xff\n", b"a\n\xff\n"), None);
}

#[test]
fn every_byte_counts() {
    let both = |found: &[u8], expected: &[u8], start: &str| {
        for place in [place(found, expected), place(expected, found)] {
            assert!(place.starts_with(start), "{place}");
        }
    };
    both(b"a\n1 0\n", b"a\n1 2\n", "byte 4, output line 2: \"1 ");
    // A newline at the end, and one that is another line ending.
    both(b"a\n1", b"a\n1\n", "byte 3, output line 2: \"1");
    both(b"a\n1\n", b"a\n1\r\n", "byte 3, output line 2: \"1");
    // Bytes that are no text, and would all be shown as the same character.
    both(b"a\xfe\n", b"a\xff\n", "byte 1, output line 1: \"a\\xf");
    both(b"a\n", b"a\n\n", "byte 2, output line 2: \"");
}

/// What a shell command does with a sheet.
fn shell(command: &str) -> std::io::Result<Vec<u8>> {
    feed(Command::new("sh").args(["-c", command]), b"5 C\n").and_then(ended_well)
}

#[test]
fn a_run_ends_with_status_0_and_an_empty_standard_error() {
    assert_eq!(shell("cat").expect("it ends well"), b"5 C\n");
    let said = shell("cat; echo no >&2").expect_err("something on standard error");
    assert_eq!(said.to_string(), "on standard error: no\\n");
    let ended = shell("cat; exit 3").expect_err("another status");
    assert!(ended.to_string().contains('3'), "{ended}");
}
