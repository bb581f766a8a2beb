//! Soundness: each rule of MODEL 9.2 to 9.8, broken alone, is noticed as such.

use crate::helpers::{card, task};
use oracle::calls;
use oracle::layout::*;
use oracle::sound::{read, Unsound};

/// A card with tasks 5 (C 2–4) and 9 (C 4–6) in column 0, and 12 (B 5–10) in column 1.
fn base() -> Vec<u8> {
    let mut record = card(5, "CB");
    let c = task(&[(0, 'C', 0, 2)]);
    assert_eq!(calls::place(&mut record, &c, 5, 0, 2), 0);
    assert_eq!(calls::place(&mut record, &c, 9, 0, 4), 0);
    let b = task(&[(0, 'B', 0, 5)]);
    assert_eq!(calls::place(&mut record, &b, 12, 1, 5), 0);
    assert!(read(&record).is_ok());
    record
}

/// What is found after bytes are put at places of the base card.
fn after(changes: &[(usize, &[u8])]) -> Option<Unsound> {
    let mut record = base();
    for &(at, bytes) in changes {
        record[at..at + bytes.len()].copy_from_slice(bytes);
    }
    read(&record).err()
}

fn after_one(at: usize, bytes: &[u8]) -> Option<Unsound> {
    after(&[(at, bytes)])
}

#[test]
fn length() {
    let record = base();
    assert_eq!(read(&record[1..]).err(), Some(Unsound::Length));
    assert_eq!(read(&[]).err(), Some(Unsound::Length));
}

#[test]
fn limits() {
    assert_eq!(after_one(ROWS_AT, &[0, 0]), Some(Unsound::Rows));
    assert_eq!(after_one(ROWS_AT, &[129, 0]), Some(Unsound::Rows));
    assert_eq!(after_one(ROWS_AT, &[5, 1]), Some(Unsound::Rows));
    assert_eq!(after_one(COLUMNS_AT, &[0]), Some(Unsound::Columns));
    assert_eq!(after_one(COLUMNS_AT, &[65]), Some(Unsound::Columns));
    assert_eq!(after_one(KINDS_AT, &[3]), Some(Unsound::Kind));
    assert_eq!(after_one(RUNNING_AT, &[65]), Some(Unsound::RunningCount));
    assert_eq!(after_one(COUNTS_AT, &[65]), Some(Unsound::IntervalCount));
    assert_eq!(
        after_one(COUNTS_AT + 9, &[65]),
        Some(Unsound::IntervalCount)
    );
    let blocks = ENTRIES_AT + ENTRY_COUNT_AT;
    assert_eq!(after_one(blocks, &[0]), Some(Unsound::BlockCount));
    assert_eq!(after_one(blocks, &[33]), Some(Unsound::BlockCount));
}

#[test]
fn numbers() {
    assert_eq!(after_one(ENTRIES_AT, &[0, 0]), Some(Unsound::NumberZero));
    assert_eq!(after_one(ENTRIES_AT, &[9, 0]), Some(Unsound::NumbersRise));
    assert_eq!(after_one(ENTRIES_AT, &[10, 0]), Some(Unsound::NumbersRise));
    assert_eq!(after_one(ENTRIES_AT, &[8, 0]), None);
    assert_eq!(after_one(ENTRIES_AT + 2 * ENTRY_SIZE, &[255, 255]), None);
    // One entry more than there is: its number is 0.
    assert_eq!(after_one(RUNNING_AT, &[4]), Some(Unsound::NumberZero));
}

#[test]
fn tasks() {
    let block = ENTRIES_AT + BLOCKS_AT;
    assert_eq!(after_one(block, &[1]), Some(Unsound::NotWellFormed));
    assert_eq!(after_one(block + 1, &[3]), Some(Unsound::NotWellFormed));
    assert_eq!(after_one(block + 4, &[3]), Some(Unsound::NotWellFormed));
    let count = ENTRIES_AT + ENTRY_COUNT_AT;
    assert_eq!(after_one(count, &[2]), Some(Unsound::NotWellFormed));
}

#[test]
fn fits_on_the_empty_device() {
    let column = ENTRIES_AT + ENTRY_COLUMN_AT;
    let bottom = ENTRIES_AT + ENTRY_BOTTOM_AT;
    assert_eq!(after_one(column, &[1]), Some(Unsound::Misfit));
    assert_eq!(after_one(column, &[2]), Some(Unsound::Misfit));
    assert_eq!(after_one(column, &[255]), Some(Unsound::Misfit));
    assert_eq!(after_one(bottom, &[1, 0]), Some(Unsound::Misfit));
    assert_eq!(after_one(bottom, &[10, 0]), Some(Unsound::Misfit));
    assert_eq!(after_one(bottom, &[254, 255]), Some(Unsound::Misfit));
    assert_eq!(after_one(bottom, &[0, 128]), Some(Unsound::Misfit));
}

#[test]
fn no_shared_cell() {
    let bottom = ENTRIES_AT + ENTRY_BOTTOM_AT;
    assert_eq!(after_one(bottom, &[4, 0]), Some(Unsound::SharedCell));
    let top = ENTRIES_AT + BLOCKS_AT + 4;
    assert_eq!(after_one(top, &[4, 0]), Some(Unsound::SharedCell));
}

#[test]
fn intervals() {
    let part = column_part(0).start;
    let wrong: [&[u8]; 14] = [
        &[0, 0, 4, 0, 6, 0, 10, 0],   // a held cell listed
        &[0, 0, 1, 0, 6, 0, 10, 0],   // half a cell
        &[2, 0, 0, 0, 6, 0, 10, 0],   // turned over
        &[0, 0, 0, 0, 6, 0, 10, 0],   // empty
        &[6, 0, 10, 0, 0, 0, 2, 0],   // not upwards
        &[0, 0, 2, 0, 6, 0, 8, 0],    // not maximal above
        &[0, 0, 2, 0, 8, 0, 10, 0],   // not maximal below
        &[0, 0, 2, 0, 6, 0, 12, 0],   // above the last cell
        &[0, 0, 2, 0, 6, 0, 10, 1],   // far above
        &[0, 0, 2, 0, 0, 0, 2, 0],    // one twice
        &[6, 0, 10, 0, 6, 0, 10, 0],  // the other twice
        &[0, 0, 10, 0, 6, 0, 10, 0],  // over the held cells
        &[0, 0, 2, 0, 6, 0, 0, 128],  // over 32,767
        &[0, 128, 2, 0, 6, 0, 10, 0], // bottom over 32,767
    ];
    for bytes in wrong {
        assert_eq!(
            after_one(part, bytes),
            Some(Unsound::Intervals),
            "{bytes:?}"
        );
    }
    // One split in two; one left out; one too many.
    let split = [0, 0, 2, 0, 6, 0, 8, 0, 8, 0, 10, 0];
    let changes: [(usize, &[u8]); 2] = [(COUNTS_AT, &[3]), (part, &split)];
    assert_eq!(after(&changes), Some(Unsound::Intervals));
    assert_eq!(after_one(COUNTS_AT, &[1]), Some(Unsound::Intervals));
    let changes: [(usize, &[u8]); 2] = [(COUNTS_AT, &[1]), (part + 4, &[0; 4])];
    assert_eq!(after(&changes), Some(Unsound::Intervals));
    assert_eq!(after_one(COUNTS_AT, &[3]), Some(Unsound::Intervals));
    // A device of another height has other intervals.
    assert_eq!(after_one(ROWS_AT, &[6]), Some(Unsound::Intervals));
    assert_eq!(after_one(COLUMNS_AT, &[3]), Some(Unsound::Intervals));
}

#[test]
fn unused_bytes() {
    let unused = [
        KINDS_AT + 2,
        KINDS_AT + 63,
        COUNTS_AT + 2,
        COUNTS_AT + 63,
        column_part(0).start + 8,
        column_part(0).end - 1,
        column_part(2).start,
        column_part(63).end - 1,
        ENTRIES_AT + BLOCKS_AT + 6,
        ENTRIES_AT + ENTRY_SIZE - 1,
        ENTRIES_AT + 3 * ENTRY_SIZE,
        ENTRIES_AT + 3 * ENTRY_SIZE + ENTRY_COUNT_AT,
        RECORD_SIZE - 1,
    ];
    for at in unused {
        assert_eq!(after_one(at, &[1]), Some(Unsound::Unused), "{at}");
    }
    // One column less: its kind and intervals are then unused, and task 12 stands nowhere.
    assert_eq!(after_one(COLUMNS_AT, &[1]), Some(Unsound::Misfit));
    // One task less: its cells are then free, and not listed.
    assert_eq!(after_one(RUNNING_AT, &[2]), Some(Unsound::Intervals));
}
