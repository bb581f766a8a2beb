//! Record bytes: by hand, and of random books.

use crate::helpers::{card, task};
use oracle::arbitrary;
use oracle::calls;
use oracle::layout::*;
use oracle::record::record_of;
use oracle::rng::Rng;
use oracle::sound::read;
use oracle::Book;

/// Puts bytes at a place.
fn put(record: &mut [u8], at: usize, bytes: &[u8]) {
    record[at..at + bytes.len()].copy_from_slice(bytes);
}

#[test]
fn the_layout_ends_where_it_should() {
    assert_eq!(column_part(0).start, 132);
    assert_eq!(column_part(3).start, 132 + 256 * 3);
    assert_eq!(column_part(63).end, 16_516);
    assert_eq!(entry_part(0).start, 16_516);
    assert_eq!(entry_part(63).end, RECORD_SIZE);
}

#[test]
fn new_record_by_hand() {
    let mut expected = vec![0; 29_188];
    put(&mut expected, 0, &[128, 0, 3, 0]);
    put(&mut expected, 4, &[0, 2, 1]);
    put(&mut expected, 68, &[1, 1, 1]);
    put(&mut expected, 132, &[0, 0, 0, 1]);
    put(&mut expected, 132 + 256, &[0, 0, 255, 0]);
    put(&mut expected, 132 + 512, &[0, 0, 255, 0]);
    assert_eq!(card(128, "CDB"), expected);
}

#[test]
fn placed_record_by_hand() {
    let mut record = card(5, "CCB");
    let mixed = task(&[(0, 'C', 0, 2), (1, 'C', -2, 2), (2, 'B', 1, 6)]);
    assert_eq!(calls::place(&mut record, &mixed, 300, 0, 4), 0);
    assert_eq!(
        calls::place(&mut record, &task(&[(0, 'C', 0, 2)]), 7, 1, 8),
        0
    );
    let mut expected = vec![0; 29_188];
    put(&mut expected, 0, &[5, 0, 3, 2, 0, 0, 1]);
    put(&mut expected, 68, &[2, 2, 1]);
    put(&mut expected, 132, &[0, 0, 4, 0, 6, 0, 10, 0]);
    put(&mut expected, 388, &[0, 0, 2, 0, 6, 0, 8, 0]);
    put(&mut expected, 644, &[0, 0, 5, 0]);
    // Number 7 comes first, though it was placed last.
    put(&mut expected, 16_516, &[7, 0, 1, 1, 8, 0]);
    put(&mut expected, 16_522, &[0, 0, 0, 0, 2, 0]);
    put(&mut expected, 16_714, &[44, 1, 0, 3, 4, 0]);
    put(&mut expected, 16_720, &[0, 0, 0, 0, 2, 0]);
    put(&mut expected, 16_726, &[1, 0, 254, 255, 2, 0]);
    put(&mut expected, 16_732, &[2, 1, 1, 0, 6, 0]);
    assert!(record == expected);
    assert_eq!(calls::release(&mut record, 7), 0);
    assert_eq!(calls::release(&mut record, 300), 0);
    assert!(record == card(5, "CCB"));
}

#[test]
fn reading_back_gives_the_same_book() {
    let mut rng = Rng::new(1);
    for _ in 0..2000 {
        let book = arbitrary::book(&mut rng, 40);
        let record = record_of(&book);
        assert_eq!(record.len(), RECORD_SIZE);
        assert_eq!(read(&record).as_ref(), Ok(&book));
    }
}

#[test]
fn new_writes_the_empty_book() {
    let mut rng = Rng::new(2);
    let (mut made, mut refused) = (0, 0);
    for _ in 0..2000 {
        let (rows, kinds) = arbitrary::device_arguments(&mut rng);
        let fill = rng.byte();
        let mut record = vec![fill; RECORD_SIZE];
        let answer = calls::new(&mut record, rows, &kinds);
        match Book::new(rows, &kinds) {
            Ok(book) => {
                made += 1;
                assert_eq!(answer, 0);
                assert!(record == record_of(&book));
            }
            Err(refusal) => {
                refused += 1;
                assert_eq!(answer, refusal.number());
                assert!(record.iter().all(|&byte| byte == fill));
            }
        }
    }
    assert!(made > 500 && refused > 500);
}

#[test]
fn records_do_not_depend_on_the_order_of_placements() {
    let mut rng = Rng::new(3);
    for _ in 0..500 {
        let book = arbitrary::book(&mut rng, 60);
        let mut order: Vec<u16> = book.running().keys().copied().collect();
        for i in (1..order.len()).rev() {
            order.swap(i, rng.below(i + 1));
        }
        let device = book.device();
        let mut record = vec![9; RECORD_SIZE];
        let made = calls::new(&mut record, device.rows(), &device.kind_bytes());
        assert_eq!(made, 0);
        for number in order {
            let entry = &book.running()[&number];
            let (task, at) = (entry.task.bytes(), entry.position);
            let number = u32::from(number);
            let placed = calls::place(&mut record, task, number, at.column, at.bottom);
            assert_eq!(placed, 0);
        }
        assert!(record == record_of(&book));
    }
}
