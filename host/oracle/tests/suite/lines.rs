//! The line reader: numbers, fields and calls.

use oracle::arbitrary;
use oracle::line::{device_line, lines, sheet_line, SheetCall};
use oracle::rng::Rng;
use oracle::task::Block;
use oracle::{Kind, Refusal};

/// A place line's bottom, read.
fn bottom(text: &str) -> Result<i16, Refusal> {
    let line = format!("P 1 0 - {text} 0");
    match sheet_line(line.as_bytes())? {
        SheetCall::PlaceDraft { bottom, .. } => Ok(bottom),
        other => panic!("{other:?}"),
    }
}

#[test]
fn numbers() {
    for value in i16::MIN..=i16::MAX {
        assert_eq!(bottom(&value.to_string()), Ok(value));
    }
    let malformed = [
        "",
        "-",
        "--1",
        "+1",
        "+0",
        "-0",
        "00",
        "01",
        "-01",
        "1-",
        "1.",
        "0x1",
        "1e1",
        "a",
        "1a",
        "32768",
        "-32769",
        "65536",
        "99999999999999999999",
        "18446744073709551616",
        "9223372036854775808",
        "-9223372036854775809",
        "1\r",
        "\t1",
        "\u{661}",
        "1\0",
    ];
    for text in malformed {
        assert_eq!(bottom(text), Err(Refusal::MalformedLine), "{text:?}");
    }
}

#[test]
fn ranges_of_the_fields() {
    let read = |line: &str| sheet_line(line.as_bytes());
    assert!(read("P 65535 255 - 0 0").is_ok());
    assert!(read("P 65536 255 - 0 0").is_err());
    assert!(read("P 65535 256 - 0 0").is_err());
    assert!(read("P -1 0 - 0 0").is_err());
    assert!(read("P 1 -1 - 0 0").is_err());
    assert!(read("R 65535 0 - 0 0").is_ok());
    assert!(read("R 65536 0 - 0 0").is_err());
    assert!(read("B 0 255 D -32768 32767").is_ok());
    assert!(read("B 0 256 D -32768 32767").is_err());
    assert!(read("B 0 255 D -32769 32767").is_err());
    assert!(read("B 0 255 D -32768 32768").is_err());
    assert!(device_line(b"65535 C").is_ok());
    assert!(device_line(b"65536 C").is_err());
    assert!(device_line(b"-1 C").is_err());
}

#[test]
fn calls_by_hand() {
    let block = Block {
        column: 1,
        kind: Kind::B,
        bottom: -2,
        top: 3,
    };
    assert_eq!(sheet_line(b"B 0 1 B -2 3"), Ok(SheetCall::AddBlock(block)));
    assert_eq!(sheet_line(b"N 0 0 - 0 0"), Ok(SheetCall::EmptyDraft));
    assert_eq!(sheet_line(b"L 0 0 - 0 0"), Ok(SheetCall::ListDraft));
    assert_eq!(sheet_line(b"C 0 0 - 0 0"), Ok(SheetCall::ChooseDraft));
    let place = SheetCall::PlaceDraft {
        task: 7,
        column: 2,
        bottom: -4,
    };
    assert_eq!(sheet_line(b"P 7 2 - -4 0"), Ok(place));
    let release = SheetCall::ReleaseTask { task: 7 };
    assert_eq!(sheet_line(b"R 7 0 - 0 0"), Ok(release));
}

#[test]
fn malformed_calls() {
    let malformed = [
        "",
        " ",
        "B",
        "X 0 0 - 0 0",
        "n 0 0 - 0 0",
        "NN 0 0 - 0 0",
        " N 0 0 - 0 0",
        "N 0 0 - 0 0 ",
        "N  0 0 - 0 0",
        "N 0 0 - 0",
        "N 0 0 - 0 0 0",
        "N 0 0 -- 0 0",
        "N 0 0 0 0 0",
        "N 0 0 C 0 0",
        "N 0 0  0 0",
        "N\t0 0 - 0 0",
        "N 0 0 - 0 0\r",
        "B 0 0 - 0 2",
        "B 0 0 E 0 2",
        "B 0 0 c 0 2",
        "B 0 0 CC 0 2",
        "B 0 0 0 0 2",
        "B 0 0  0 2",
        "B 0 0 C 0",
        "B 0 0 C 0 2 0",
        "P 1 0 C 0 0",
        "R 1 0 B 0 0",
    ];
    for text in malformed {
        assert_eq!(
            sheet_line(text.as_bytes()),
            Err(Refusal::MalformedLine),
            "{text:?}"
        );
    }
}

#[test]
fn malformed_devices() {
    for text in [
        "", "5", "5 ", " C", "5 C C", "5  C", "5 CX", "5 c", "05 C", "5 C\r", "5 C ",
    ] {
        assert_eq!(
            device_line(text.as_bytes()),
            Err(Refusal::MalformedLine),
            "{text:?}"
        );
    }
    let device = device_line(b"0 CBD").unwrap();
    assert_eq!((device.rows, device.kinds), (0, vec![0, 1, 2]));
}

#[test]
fn lines_are_ended_by_newlines() {
    assert!(lines(b"").is_empty());
    assert_eq!(lines(b"\n"), [b""]);
    assert_eq!(lines(b"a"), [b"a"]);
    assert_eq!(lines(b"a\n"), [b"a"]);
    assert_eq!(lines(b"a\n\n"), [&b"a"[..], b""]);
    assert_eq!(lines(b"a\n\nb"), [&b"a"[..], b"", b"b"]);
}

#[test]
fn written_calls_are_read_back() {
    let mut rng = Rng::new(50);
    for _ in 0..100 {
        let device = arbitrary::device(&mut rng);
        for call in arbitrary::sheet_calls(&mut rng, &device, 20) {
            assert_eq!(sheet_line(call.to_string().as_bytes()), Ok(call));
        }
    }
}
