//! How broken up a card is: small cards whose numbers are found by hand, and refusals.

use crate::helpers::{card, task};
use oracle::calls::{self, place};
use oracle::fragments::degree;
use oracle::layout::*;
use oracle::record::record_of;
use oracle::Book;

/// What the two numbers may be before the call.
const BEFORE: [i32; 5] = [0, -1, 77, i32::MIN, i32::MAX];

/// The call's answer, and the two numbers that it writes over what was there.
fn call_over(record: &[u8], before: i32) -> (i32, i32, i32) {
    // The complement, so that the two differ before the call.
    let (mut free, mut degree) = (before, !before);
    let sets = calls::fragmentation(record, &mut free, &mut degree);
    (sets, free, degree)
}

/// The three numbers of a record, which stays as it is.
pub fn numbers(record: &[u8]) -> (i32, i32, i32) {
    let kept = record.to_vec();
    let answer = call_over(record, 77);
    assert!(record == kept);
    answer
}

/// A card on which one task holds the blocks, given by columns and half rows of the card.
fn held(rows: u32, letters: &str, blocks: &[(u8, char, i16, i16)]) -> Vec<u8> {
    let (column, _, base, _) = blocks[0];
    let relative: Vec<_> = blocks
        .iter()
        .map(|&(c, letter, bottom, top)| (c - column, letter, bottom - base, top - base))
        .collect();
    let task = task(&relative);
    let mut record = card(rows, letters);
    let answer = place(&mut record, &task, 1, column.into(), base.into());
    assert_eq!(answer, 0);
    record
}

#[test]
fn one_empty_column() {
    // All cells hang together, one above the other: 5 of 2 half rows, 2 of 5.
    assert_eq!(numbers(&card(5, "C")), (1, 5, 0));
    assert_eq!(numbers(&card(5, "B")), (1, 2, 0));
    assert_eq!(numbers(&card(5, "D")), (1, 2, 0));
}

#[test]
fn one_task_parts_a_column() {
    // Cells 0 and 1 are below it, 3 and 4 above: 10,000 × 1 / 3.
    assert_eq!(numbers(&held(5, "C", &[(0, 'C', 4, 6)])), (2, 4, 3333));
    // At the lower end it parts nothing.
    assert_eq!(numbers(&held(5, "C", &[(0, 'C', 0, 2)])), (1, 4, 0));
}

#[test]
fn the_card_of_the_sheet() {
    // 5 + 5 + 2 cells, side by side.
    let mut record = card(5, "CCB");
    assert_eq!(numbers(&record), (1, 12, 0));
    // Line 8 takes 4–6, 2–6 and 5–10. Below it 0–4, 0–2 and 0–5 are left, 2 + 1 + 1
    // cells, and half row 0 joins each to the next. Above it 6–10 is left twice, 2 + 2
    // cells, and B 0–5 ends too low to join them to the others. So 10,000 × 1 / 7.
    let mixed = task(&[(0, 'C', 0, 2), (1, 'C', -2, 2), (2, 'B', 1, 6)]);
    assert_eq!(place(&mut record, &mixed, 7, 0, 4), 0);
    assert_eq!(numbers(&record), (2, 8, 1428));
    assert_eq!(calls::release(&mut record, 7), 0);
    assert_eq!(numbers(&record), (1, 12, 0));
}

#[test]
fn a_column_without_a_cell_parts_its_neighbours() {
    // On 2 rows B has no cell, so nothing leads from column 0 to column 2.
    assert_eq!(numbers(&card(2, "CBC")), (2, 4, 3333));
    // On 3 rows it has one, 0–5, which touches both: 3 + 1 + 3 cells.
    assert_eq!(numbers(&card(3, "CBC")), (1, 7, 0));
}

#[test]
fn a_held_column_parts_its_neighbours() {
    // 2 cells on each side of it, and columns 0 and 2 are no neighbours.
    assert_eq!(numbers(&held(2, "CCC", &[(1, 'C', 0, 4)])), (2, 4, 3333));
    // The same cells in columns that are.
    assert_eq!(numbers(&card(2, "CC")), (1, 4, 0));
}

#[test]
fn one_half_row_in_common_is_enough() {
    // Free are C 4–6 and B 0–5: half row 4 is in both.
    let lower = [(0, 'C', 0, 4), (0, 'C', 6, 10), (1, 'B', 5, 10)];
    assert_eq!(numbers(&held(5, "CB", &lower)), (1, 2, 0));
    // Free are C 4–6 and B 5–10: half row 5 is in both.
    let upper = [(0, 'C', 0, 4), (0, 'C', 6, 10), (1, 'B', 0, 5)];
    assert_eq!(numbers(&held(5, "CB", &upper)), (1, 2, 0));
    // The same with B on the left.
    let turned = [(0, 'B', 0, 5), (1, 'C', 0, 4), (1, 'C', 6, 10)];
    assert_eq!(numbers(&held(5, "BC", &turned)), (1, 2, 0));
}

#[test]
fn to_meet_at_an_end_is_not_to_touch() {
    // Free are C 10–12 and B 5–10.
    let above = [(0, 'C', 0, 10), (1, 'B', 0, 5)];
    assert_eq!(numbers(&held(6, "CB", &above)), (2, 2, 10_000));
    // Free are C 8–10 and B 10–15.
    let below = [(0, 'C', 0, 8), (0, 'C', 10, 16), (1, 'B', 0, 10)];
    assert_eq!(numbers(&held(8, "CB", &below)), (2, 2, 10_000));
    // Free are C 0–2 and, in the next column, C 2–4: corner to corner.
    let corner = [(0, 'C', 2, 4), (1, 'C', 0, 2)];
    assert_eq!(numbers(&held(2, "CC", &corner)), (2, 2, 10_000));
}

#[test]
fn one_free_cell() {
    assert_eq!(numbers(&card(1, "C")), (1, 1, 0));
    assert_eq!(numbers(&card(3, "B")), (1, 1, 0));
    // Of 5 cells 4 are held.
    assert_eq!(numbers(&held(5, "C", &[(0, 'C', 0, 8)])), (1, 1, 0));
}

#[test]
fn no_free_cell() {
    // No column has a cell.
    assert_eq!(numbers(&card(2, "BDB")), (0, 0, 0));
    // Every cell is held.
    assert_eq!(numbers(&held(1, "C", &[(0, 'C', 0, 2)])), (0, 0, 0));
    let both = [(0, 'C', 0, 10), (1, 'B', 0, 10)];
    assert_eq!(numbers(&held(5, "CB", &both)), (0, 0, 0));
}

#[test]
fn sets_that_join_far_away() {
    // Column 1 is free in its top cell only, and that joins the columns beside it: 5 + 1 + 5.
    assert_eq!(numbers(&held(5, "CCC", &[(1, 'C', 0, 8)])), (1, 11, 0));
    // The 8 cells around a held one.
    assert_eq!(numbers(&held(3, "CCC", &[(1, 'C', 2, 4)])), (1, 8, 0));
    // Of 25 cells a ring of 8 is held: 1 inside it, 16 outside, 10,000 × 1 / 16.
    let sides = [(1, 'C', 2, 8), (3, 'C', 2, 8)];
    let ends = [(2, 'C', 2, 4), (2, 'C', 6, 8)];
    let ring = [sides[0], ends[0], ends[1], sides[1]];
    assert_eq!(numbers(&held(5, "CCCCC", &ring)), (2, 17, 625));
}

#[test]
fn a_path_up_and_down_through_all_columns() {
    // Each odd column is free in one cell only, by turns at the top and at the bottom:
    // 4 × 4 + 3 cells in one line.
    let walls = [(1, 'C', 0, 6), (3, 'C', 2, 8), (5, 'C', 0, 6)];
    assert_eq!(numbers(&held(4, "CCCCCCC", &walls)), (1, 19, 0));
    // With a cell of column 2 held as well there are two lines: 10,000 × 1 / 17.
    let cut = [walls[0], (2, 'C', 4, 6), walls[1], walls[2]];
    assert_eq!(numbers(&held(4, "CCCCCCC", &cut)), (2, 18, 588));
}

#[test]
fn the_degree_is_rounded_down() {
    // Free are cells 0 and 1, 3, and 5: 10,000 × 2 / 3, which is nearer to 6,667.
    let two = [(0, 'C', 4, 6), (0, 'C', 8, 10)];
    assert_eq!(numbers(&held(6, "C", &two)), (3, 4, 6666));
    // Sets, free cells, degree; in the comments the share before it is rounded.
    let by_hand = [
        (0, 0, 0),
        (1, 1, 0),
        (1, 2, 0),
        (2, 2, 10_000),
        (2, 3, 5_000),
        (2, 8, 1_428), // 1,428.57
        (7, 8, 8_571), // 8,571.43
        (1, 8_192, 0),
        (2, 8_192, 1),         // 1.22
        (8_191, 8_192, 9_998), // 9,998.78
        (8_192, 8_192, 10_000),
    ];
    for (sets, free, expected) in by_hand {
        assert_eq!(degree(sets, free), expected, "{sets} {free}");
    }
}

/// A card of 128 rows and C columns with every other cell of the first 32 columns held,
/// from the given cell of each column on: 64 tasks of 32 blocks, as many as there may be.
fn every_other_cell(columns: usize, lowest: impl Fn(u32) -> u32) -> Vec<u8> {
    let mut book = Book::new(128, &vec![0; columns]).unwrap();
    let comb: Vec<_> = (0..32).map(|k| (0, 'C', 4 * k, 4 * k + 2)).collect();
    let comb = task(&comb);
    for column in 0..32 {
        // A comb is half a column high.
        for half in 0..2 {
            let number = 2 * column + half + 1;
            let bottom = 2 * lowest(column) + 128 * half;
            let placed = book.place(&comb, number, column, bottom as i32);
            assert_eq!(placed, Ok(()));
        }
    }
    record_of(&book)
}

#[test]
fn every_other_cell_held() {
    // A chess board: each of the 32 × 64 free cells has held ones on all sides.
    let board = every_other_cell(32, |column| column % 2);
    assert_eq!(numbers(&board), (2048, 2048, 10_000));
    // The same cells in every column: 64 free lines of 32 cells, 10,000 × 63 / 2,047.
    let lines = every_other_cell(32, |_| 0);
    assert_eq!(numbers(&lines), (64, 2048, 307));
    // 32 free columns beside the board make one set with the 64 free cells of column 31:
    // 2,048 − 64 + 1 sets, 2,048 + 4,096 cells, 10,000 × 1,984 / 6,143.
    let board_and_more = every_other_cell(64, |column| column % 2);
    assert_eq!(numbers(&board_and_more), (1985, 6144, 3229));
    // Beside the lines they join all of these.
    let lines_and_more = every_other_cell(64, |_| 1);
    assert_eq!(numbers(&lines_and_more), (1, 6144, 0));
}

#[test]
fn the_largest_cards() {
    // A column of C has 128 cells, one of B or D has 51.
    assert_eq!(numbers(&card(128, &"C".repeat(64))), (1, 8192, 0));
    assert_eq!(numbers(&card(128, &"D".repeat(64))), (1, 3264, 0));
    assert_eq!(numbers(&card(128, &"CB".repeat(32))), (1, 5728, 0));
}

#[test]
fn refusals_come_with_two_zeros() {
    let sound = held(5, "CB", &[(0, 'C', 4, 6)]);
    let mut bad = vec![
        (-1, Vec::new()),
        (-1, sound[..RECORD_SIZE - 1].to_vec()),
        (-1, [sound.as_slice(), &[0]].concat()),
        // Too short, and no device either: the length comes first.
        (-1, vec![0; RECORD_SIZE - 1]),
        (-2, vec![0; RECORD_SIZE]),
    ];
    // Rows, a kind, a count, an interval, a task number, an unused byte.
    let changes = [
        (ROWS_AT, 0),
        (KINDS_AT, 3),
        (COUNTS_AT, 1),
        (INTERVALS_AT, 2),
        (ENTRIES_AT, 0),
        (RECORD_SIZE - 1, 1),
    ];
    for (at, byte) in changes {
        let mut record = sound.clone();
        record[at] = byte;
        bad.push((-2, record));
    }
    for (refusal, record) in bad {
        for before in BEFORE {
            assert_eq!(call_over(&record, before), (refusal, 0, 0));
        }
        assert_eq!(numbers(&record), (refusal, 0, 0));
    }
}

#[test]
fn the_numbers_before_the_call_do_not_matter() {
    // C 0–4 touches B 0–5, on which B 5–10 stands, which touches C 6–10: 2 + 1 + 1 + 2 cells.
    let record = held(5, "CB", &[(0, 'C', 4, 6)]);
    let full = held(1, "C", &[(0, 'C', 0, 2)]);
    for before in BEFORE {
        assert_eq!(call_over(&record, before), (1, 6, 0));
        assert_eq!(call_over(&full, before), (0, 0, 0));
    }
}
