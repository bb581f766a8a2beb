//! The sheet: the example (MODEL 18.14) byte for byte, and the rules one by one,
//! with decisions 1 to 17 of `docs/DECISIONS.md`.

use oracle::sheet::{sheet, MAX_SHEET, OUTPUT_NAMES};

const EXAMPLE: &str = "rows kinds\n5 CCB\ncall task column kind bottom top\nB 0 0 C 0 2\n\
B 0 1 C -2 2\nB 0 2 B 1 6\nL 0 0 - 0 0\nP 7 0 - 4 0\nL 0 0 - 0 0\nN 0 0 - 0 0\nB 0 0 C 0 4\n\
L 0 0 - 0 0\nC 0 0 - 0 0\nR 8 0 - 0 0\nR 7 0 - 0 0\n";

const EXAMPLE_OUTPUT: &str = "line answer column first step last\n7 1 0 4 10 4\n8 0 0 0 0 0\n\
9 -9 0 0 0 0\n12 3 0 0 2 0\n12 3 0 6 2 6\n12 3 1 6 2 6\n13 0 0 0 0 0\n14 -11 0 0 0 0\n\
15 0 0 0 0 0\n";

/// What a whole input prints after the names line.
fn whole(input: &[u8]) -> String {
    let printed = String::from_utf8(sheet(input)).unwrap();
    let rest = printed.strip_prefix(OUTPUT_NAMES).expect("the names line");
    assert!(rest.is_empty() || rest.ends_with('\n'));
    rest.to_string()
}

/// What lines after the third print, on a card of 5 rows, CCB.
fn after_names(lines: &str) -> String {
    let head = "rows kinds\n5 CCB\ncall task column kind bottom top\n";
    whole(format!("{head}{lines}").as_bytes())
}

#[test]
fn the_example() {
    assert_eq!(sheet(EXAMPLE.as_bytes()), EXAMPLE_OUTPUT.as_bytes());
}

#[test]
fn p1_the_last_newline_may_be_missing() {
    let input = EXAMPLE.strip_suffix('\n').unwrap();
    assert_eq!(sheet(input.as_bytes()), EXAMPLE_OUTPUT.as_bytes());
    let more = format!("{EXAMPLE}\n");
    let expected = format!("{EXAMPLE_OUTPUT}16 -12 0 0 0 0\n");
    assert_eq!(sheet(more.as_bytes()), expected.as_bytes());
}

#[test]
fn p2_an_empty_line_is_malformed() {
    let printed = after_names("\nR 1 0 - 0 0\n\n\n");
    let expected = "4 -12 0 0 0 0\n5 -11 0 0 0 0\n6 -12 0 0 0 0\n7 -12 0 0 0 0\n";
    assert_eq!(printed, expected);
}

#[test]
fn p3_missing_lines() {
    assert_eq!(whole(b""), "1 -12 0 0 0 0\n");
    assert_eq!(whole(b"rows kinds"), "2 -12 0 0 0 0\n");
    assert_eq!(whole(b"rows kinds\n"), "2 -12 0 0 0 0\n");
    assert_eq!(whole(b"rows kinds\n5 C"), "3 -12 0 0 0 0\n");
    assert_eq!(whole(b"rows kinds\n5 C\n"), "3 -12 0 0 0 0\n");
    assert_eq!(after_names(""), "");
}

#[test]
fn p4_new_is_called_before_line_3_is_looked_at() {
    assert_eq!(whole(b"rows kinds\n0 C\nwrong\n"), "2 -3 0 0 0 0\n");
    assert_eq!(whole(b"rows kinds\n0 C"), "2 -3 0 0 0 0\n");
    assert_eq!(whole(b"wrong\n0 C\nwrong\n"), "1 -12 0 0 0 0\n");
    assert_eq!(
        whole(b"rows kinds\n1 C\nwrong\nL 0 0 - 0 0\n"),
        "3 -12 0 0 0 0\n"
    );
    for rows in ["0", "129", "65535"] {
        let input = format!("rows kinds\n{rows} C\ncall task column kind bottom top\n");
        assert_eq!(whole(input.as_bytes()), "2 -3 0 0 0 0\n");
    }
}

#[test]
fn p5_a_line_that_cannot_be_read_makes_no_call() {
    for line in ["0 CX", "0 ", "65536 C", "0  C", "-1 C", "+5 C", "05 C"] {
        let input = format!("rows kinds\n{line}\ncall task column kind bottom top\n");
        assert_eq!(whole(input.as_bytes()), "2 -12 0 0 0 0\n", "{line}");
    }
}

#[test]
fn p6_many_letters() {
    for letters in 0..=90 {
        let kinds = "C".repeat(letters);
        let input = format!("rows kinds\n5 {kinds}\ncall task column kind bottom top\n");
        let expected = match letters {
            0 | 79.. => "2 -12 0 0 0 0\n",
            1..=64 => "",
            _ => "2 -3 0 0 0 0\n",
        };
        assert_eq!(whole(input.as_bytes()), expected, "{letters}");
    }
    assert_eq!(whole(b"rows kinds\n5\n"), "2 -12 0 0 0 0\n");
}

#[test]
fn p7_names_lines_byte_for_byte() {
    for names in [
        "Rows kinds",
        "rows kinds ",
        " rows kinds",
        "rows  kinds",
        "rows kinds\r",
        "",
    ] {
        let input = format!("{names}\n5 C\ncall task column kind bottom top\n");
        assert_eq!(whole(input.as_bytes()), "1 -12 0 0 0 0\n", "{names}");
    }
    for names in [
        "call task column kind bottom",
        "call task column kind bottom top ",
        "",
        "\r",
    ] {
        let input = format!("rows kinds\n5 C\n{names}\nL 0 0 - 0 0\n");
        assert_eq!(whole(input.as_bytes()), "3 -12 0 0 0 0\n", "{names}");
    }
}

#[test]
fn p8_other_bytes_are_part_of_a_field() {
    let head = b"rows kinds\n5 CCB\ncall task column kind bottom top\n";
    for line in [
        &b"L 0 0 - 0 0\r"[..],
        b"L\t0 0 - 0 0",
        b"L 0 0 - 0 0\0",
        b"L 0 0 - 0 \xff",
    ] {
        let input = [head, line, b"\n"].concat();
        assert_eq!(whole(&input), "4 -12 0 0 0 0\n", "{line:?}");
    }
}

#[test]
fn p9_empty_fields() {
    for line in [
        " R 1 0 - 0 0",
        "R  1 0 - 0 0",
        "R 1 0 - 0 0 ",
        "R 1 0 -  0 0",
        " ",
    ] {
        assert_eq!(after_names(line), "4 -12 0 0 0 0\n", "{line}");
    }
}

#[test]
fn p10_ranges_of_fields_and_of_calls() {
    let block = "B 0 0 C 0 2\n";
    let printed = |line: &str| after_names(&format!("{block}{line}\n"));
    assert_eq!(printed("P 1 256 - 0 0"), "5 -12 0 0 0 0\n");
    assert_eq!(printed("P 1 255 - 0 0"), "5 -10 0 0 0 0\n");
    assert_eq!(printed("P 1 64 - 0 0"), "5 -10 0 0 0 0\n");
    assert_eq!(printed("P 1 0 - 32768 0"), "5 -12 0 0 0 0\n");
    assert_eq!(printed("P 1 0 - 32767 0"), "5 -10 0 0 0 0\n");
    assert_eq!(printed("P 1 0 - -32769 0"), "5 -12 0 0 0 0\n");
    assert_eq!(printed("P 1 0 - -32768 0"), "5 -10 0 0 0 0\n");
    assert_eq!(printed("P 0 0 - 0 0"), "5 -7 0 0 0 0\n");
    assert_eq!(printed("P 65536 0 - 0 0"), "5 -12 0 0 0 0\n");
    assert_eq!(printed("P 65535 0 - 0 0"), "5 0 0 0 0 0\n");
    assert_eq!(printed("R 0 0 - 0 0"), "5 -11 0 0 0 0\n");
    let digits = "9".repeat(60);
    assert_eq!(printed(&format!("P 1 0 - {digits} 0")), "5 -12 0 0 0 0\n");
}

#[test]
fn p11_unused_fields() {
    let malformed = [
        "B 1 0 C 0 2",
        "N 1 0 - 0 0",
        "N 0 1 - 0 0",
        "N 0 0 C 0 0",
        "N 0 0 - 1 0",
        "N 0 0 - 0 1",
        "L 1 0 - 0 0",
        "L 0 1 - 0 0",
        "L 0 0 B 0 0",
        "L 0 0 - 1 0",
        "L 0 0 - 0 1",
        "C 1 0 - 0 0",
        "C 0 1 - 0 0",
        "C 0 0 D 0 0",
        "C 0 0 - 1 0",
        "C 0 0 - 0 1",
        "P 1 0 C 0 0",
        "P 1 0 - 0 1",
        "R 1 1 - 0 0",
        "R 1 0 C 0 0",
        "R 1 0 - 1 0",
        "R 1 0 - 0 1",
        "L 0 0 - 0 -0",
        "L 00 0 - 0 0",
    ];
    for line in malformed {
        assert_eq!(after_names(line), "4 -12 0 0 0 0\n", "{line}");
    }
}

/// So many B lines, of one C cell in each column.
fn blocks(count: usize) -> String {
    (0..count).map(|k| format!("B 0 {k} C 0 2\n")).collect()
}

#[test]
fn p12_the_33rd_block() {
    let lines = format!("{}B 0 0 X 0 2\nB 0 33 C 0 2\nB 0 34 C 0 2\n", blocks(33));
    let expected = "36 -4 0 0 0 0\n37 -12 0 0 0 0\n38 -4 0 0 0 0\n39 -4 0 0 0 0\n";
    assert_eq!(after_names(&lines), expected);
    // Not added: the 32 blocks are still a well-formed task, that fits nowhere.
    let lines = format!("{}L 0 0 - 0 0\nN 0 0 - 0 0\nB 0 0 C 0 2\n", blocks(33));
    assert_eq!(after_names(&lines), "36 -4 0 0 0 0\n37 -9 0 0 0 0\n");
    assert_eq!(after_names(&blocks(32)), "");
}

#[test]
fn p13_a_block_is_not_judged() {
    for block in [
        "B 0 5 C 0 2",
        "B 0 0 C 1 3",
        "B 0 0 C 2 0",
        "B 0 255 D -32768 32767",
    ] {
        let lines = format!("{block}\nL 0 0 - 0 0\nC 0 0 - 0 0\nP 1 0 - 0 0\n");
        let expected = "5 -5 0 0 0 0\n6 -5 0 0 0 0\n7 -5 0 0 0 0\n";
        assert_eq!(after_names(&lines), expected, "{block}");
    }
}

#[test]
fn p14_only_n_empties_the_draft() {
    let lines = "B 0 0 C 0 10\nP 1 0 - 0 0\nL 0 0 - 0 0\nC 0 0 - 0 0\nR 1 0 - 0 0\nX\n\
        P 2 1 - 0 0\nN 0 0 - 0 0\nL 0 0 - 0 0\nC 0 0 - 0 0\nP 3 0 - 0 0\nP 0 0 - 0 0\n";
    let expected = "5 0 0 0 0 0\n6 1 1 0 2 0\n7 1024 0 0 0 0\n8 0 0 0 0 0\n9 -12 0 0 0 0\n\
        10 0 0 0 0 0\n12 -4 0 0 0 0\n13 -4 0 0 0 0\n14 -4 0 0 0 0\n15 -4 0 0 0 0\n";
    assert_eq!(after_names(lines), expected);
    let empty = "L 0 0 - 0 0\nC 0 0 - 0 0\nP 0 0 - 0 0\n";
    let expected = "4 -4 0 0 0 0\n5 -4 0 0 0 0\n6 -4 0 0 0 0\n";
    assert_eq!(after_names(empty), expected);
}

#[test]
fn p15_long_lines() {
    // 80 bytes that are malformed for another reason, then 81, then very many.
    for length in [80, 81, 1000, 30_000] {
        let lines = format!("{}\nR 1 0 - 0 0\n", "R".repeat(length));
        assert_eq!(after_names(&lines), "4 -12 0 0 0 0\n5 -11 0 0 0 0\n");
    }
    let long_names = format!("rows kinds{}\n", " ".repeat(100));
    assert_eq!(whole(long_names.as_bytes()), "1 -12 0 0 0 0\n");
}

#[test]
fn p16_input_over_the_limit() {
    let mut input = EXAMPLE.as_bytes().to_vec();
    input.resize(MAX_SHEET, b'x');
    let expected = format!("{EXAMPLE_OUTPUT}16 -12 0 0 0 0\n");
    assert_eq!(sheet(&input), expected.as_bytes());
    input.push(b'\n');
    assert_eq!(whole(&input), "0 -12 0 0 0 0\n");
    assert_eq!(whole(&vec![b'\n'; MAX_SHEET + 1]), "0 -12 0 0 0 0\n");
    assert_eq!(whole(&vec![b'\n'; MAX_SHEET]), "1 -12 0 0 0 0\n");
}

#[test]
fn p17_the_names_line_comes_always() {
    for input in [&b""[..], b"\n", b"x", EXAMPLE.as_bytes()] {
        let printed = sheet(input);
        assert!(printed.starts_with(b"line answer column first step last\n"));
        assert!(printed.ends_with(b"\n") && !printed.ends_with(b"\n\n"));
    }
    let only_names = "rows kinds\n5 C\ncall task column kind bottom top";
    assert_eq!(sheet(only_names.as_bytes()), OUTPUT_NAMES.as_bytes());
}
