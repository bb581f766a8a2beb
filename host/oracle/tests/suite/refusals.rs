//! Every refusal of the table, alone and together with every other that the same
//! call may have: the upper row of the table is the answer, and all bytes stay.

use crate::helpers::{card, kinds, task};
use oracle::calls;
use oracle::layout::{column_part, COUNTS_AT, ENTRIES_AT, RECORD_SIZE};
use oracle::listing::LIST_ROOM;
use oracle::Refusal;

/// All sets of the given faults.
fn subsets(faults: &[i32]) -> Vec<Vec<i32>> {
    let pick = |mask: usize| {
        let chosen = |(i, fault): (usize, &i32)| (mask >> i & 1 == 1).then_some(*fault);
        faults.iter().enumerate().filter_map(chosen).collect()
    };
    (0..1 << faults.len()).map(pick).collect()
}

/// The first fault in the table's order, or 0 where there is none.
fn nearest(faults: &[i32], otherwise: i32) -> i32 {
    faults.iter().copied().max().unwrap_or(otherwise)
}

/// Spoils a record's length, or its soundness, as the faults say.
fn spoil(record: &mut Vec<u8>, faults: &[i32], variant: usize) {
    if faults.contains(&-2) {
        match variant % 3 {
            0 => record[0] = 0,
            1 => record[RECORD_SIZE - 1] = 1,
            _ => record[COUNTS_AT] = record[COUNTS_AT].wrapping_add(1),
        }
    }
    if faults.contains(&-1) {
        record.resize([RECORD_SIZE - 1, RECORD_SIZE + 1, 0][variant % 3], 0);
    }
}

/// A task of one C block, spoiled as the faults say.
fn spoiled_task(faults: &[i32], variant: usize) -> Vec<u8> {
    let mut bytes = task(&[(0, 'C', 0, 2)]);
    if faults.contains(&-5) {
        match variant % 3 {
            0 => bytes[1] = 3,
            1 => bytes[0] = 1,
            _ => bytes[4] = 3,
        }
    }
    if faults.contains(&-4) {
        match variant % 3 {
            0 => bytes.push(0),
            1 => bytes = bytes.repeat(33),
            _ => bytes.clear(),
        }
    }
    bytes
}

#[test]
fn numbers_of_the_table() {
    let numbers: Vec<i32> = Refusal::ALL.iter().map(|r| r.number()).collect();
    assert_eq!(numbers, (1..=12).map(|n| -n).collect::<Vec<i32>>());
}

#[test]
fn new_refuses_in_order() {
    let bad: [(u32, Vec<u8>); 8] = [
        (0, kinds("C")),
        (129, kinds("C")),
        (65_537, kinds("C")),
        (u32::MAX, kinds("C")),
        (1, vec![]),
        (1, vec![0; 65]),
        (1, vec![0; 256]),
        (1, vec![0, 1, 2, 3]),
    ];
    for (rows, kinds) in &bad {
        for length in [RECORD_SIZE, 0, RECORD_SIZE - 1, RECORD_SIZE + 1] {
            let mut record = vec![7; length];
            let expected = if length == RECORD_SIZE { -3 } else { -1 };
            assert_eq!(calls::new(&mut record, *rows, kinds), expected);
            assert!(record.iter().all(|&byte| byte == 7));
        }
    }
    for (rows, kinds) in [(1, vec![2]), (128, vec![0; 64])] {
        let mut record = vec![7; RECORD_SIZE];
        assert_eq!(calls::new(&mut record, rows, &kinds), 0);
        let mut short = vec![7; RECORD_SIZE - 1];
        assert_eq!(calls::new(&mut short, rows, &kinds), -1);
    }
}

/// A card on which task 65,535 runs, and the same card with 63 more.
fn open_and_full() -> (Vec<u8>, Vec<u8>) {
    let one = task(&[(0, 'C', 0, 2)]);
    let mut open = card(128, "CC");
    assert_eq!(calls::place(&mut open, &one, 65_535, 0, 0), 0);
    let mut full = open.clone();
    for number in 1..=63 {
        let bottom = 2 * number as i32;
        assert_eq!(calls::place(&mut full, &one, number, 0, bottom), 0);
    }
    (open, full)
}

/// Place's number, column and bottom, spoiled as the faults say.
fn spoiled_place(faults: &[i32], variant: usize) -> (u32, u32, i32) {
    let bad = [0, 65_535, 65_536, 65_535 + 65_536, u32::MAX];
    let off = [(0, 0), (1, 1), (1, -2), (1, 256), (2, 0), (256, 2), (!0, 0)];
    let (mut number, mut at) = (64, (1, 2));
    if faults.contains(&-7) {
        number = bad[variant % 5];
    }
    if faults.contains(&-10) {
        at = off[variant % 7];
    }
    (number, at.0, at.1)
}

#[test]
fn place_refuses_in_order() {
    let (open, full) = open_and_full();
    for faults in subsets(&[-1, -2, -4, -5, -7, -8, -10]) {
        for variant in 0..9 {
            let base = if faults.contains(&-8) { &full } else { &open };
            let mut record = base.clone();
            spoil(&mut record, &faults, variant);
            let before = record.clone();
            let task = spoiled_task(&faults, variant / 3);
            let (number, column, bottom) = spoiled_place(&faults, variant);
            let answer = calls::place(&mut record, &task, number, column, bottom);
            assert_eq!(answer, nearest(&faults, 0), "{faults:?}");
            assert_eq!(answer != 0, record == before, "{faults:?}");
        }
    }
}

#[test]
fn release_refuses_in_order() {
    let mut open = card(3, "C");
    let one = task(&[(0, 'C', 0, 2)]);
    assert_eq!(calls::place(&mut open, &one, 9, 0, 0), 0);
    for faults in subsets(&[-1, -2, -11]) {
        for variant in 0..12 {
            let mut record = open.clone();
            spoil(&mut record, &faults, variant);
            let before = record.clone();
            let not_running = [0, 8, 9 + 65_536, u32::MAX];
            let number = if faults.contains(&-11) {
                not_running[variant % 4]
            } else {
                9
            };
            let answer = calls::release(&mut record, number);
            assert_eq!(answer, nearest(&faults, 0), "{faults:?}");
            assert_eq!(answer != 0, record == before, "{faults:?}");
        }
    }
}

#[test]
fn list_and_choose_refuse_in_order() {
    for faults in subsets(&[-1, -2, -4, -5, -6, -9]) {
        for variant in 0..9 {
            let letters = if faults.contains(&-9) { "BD" } else { "BC" };
            let mut record = card(3, letters);
            spoil(&mut record, &faults, variant);
            let before = record.clone();
            let task = spoiled_task(&faults, variant / 3);
            let short = [LIST_ROOM - 1, 6, 0];
            let length = if faults.contains(&-6) {
                short[variant % 3]
            } else {
                LIST_ROOM
            };
            let mut output = vec![0xEE; length];
            let answer = calls::list(&record, &task, &mut output);
            assert_eq!(answer, nearest(&faults, 1), "{faults:?}");
            assert_eq!(answer < 0, output.iter().all(|&byte| byte == 0xEE));
            let without_output: Vec<i32> = faults.iter().copied().filter(|&f| f != -6).collect();
            let answer = calls::choose(&record, &task);
            assert_eq!(answer, nearest(&without_output, 1024), "{faults:?}");
            assert_eq!(record, before);
        }
    }
}

#[test]
fn interval_count_and_view_refuse_in_order() {
    for faults in subsets(&[-1, -2, -3]) {
        for variant in 0..12 {
            let mut record = card(3, "CC");
            spoil(&mut record, &faults, variant);
            let missing = [2, 64, 256, u32::MAX];
            let column = if faults.contains(&-3) {
                missing[variant % 4]
            } else {
                1
            };
            let answer = calls::interval_count(&record, column);
            assert_eq!(answer, nearest(&faults, 1), "{faults:?}");
            let view = calls::view(&record, column);
            assert_eq!(view.is_empty(), !faults.is_empty());
            if faults.is_empty() {
                let start = column_part(1).start;
                assert!(std::ptr::eq(view, &record[start..start + 4]));
            }
        }
    }
}

#[test]
fn no_argument_is_cut_to_fewer_bits() {
    let one = task(&[(0, 'C', 0, 2)]);
    let mut record = card(3, "C");
    assert_eq!(calls::place(&mut record, &one, 1, 0, 0), 0);
    assert_eq!(calls::place(&mut record, &one, 65_538, 0, 2), -7);
    assert_eq!(calls::place(&mut record, &one, 2, 256, 2), -10);
    assert_eq!(calls::place(&mut record, &one, 2, 0, 65_538), -10);
    assert_eq!(calls::place(&mut record, &one, 2, 0, 2 - 65_536), -10);
    assert_eq!(calls::release(&mut record, 65_537), -11);
    assert_eq!(record[ENTRIES_AT], 1);
}
