//! The small cards K1 to K10 (MODEL 19.1), the comb's card K18 (MODEL 19.3), and
//! cards cut up as far as can be.

use crate::helpers::{card, listing, score_of, task, view};
use oracle::calls::{choose, interval_count, place, release};
use oracle::Book;

#[test]
fn k1_no_cell() {
    let record = card(2, "B");
    assert_eq!(interval_count(&record, 0), 0);
    assert!(view(&record, 0).is_empty());
    assert_eq!(listing(&record, &task(&[(0, 'B', 0, 5)])), Err(-9));
    assert_eq!(choose(&record, &task(&[(0, 'B', 0, 5)])), -9);
}

#[test]
fn k2_one_cell() {
    let record = card(3, "B");
    let ranges = listing(&record, &task(&[(0, 'B', 0, 5)]));
    assert_eq!(ranges, Ok(vec![(0, 5, 0, 0)]));
}

/// The example's first task: C, C below the first bottom, and B on another step.
fn mixed() -> Vec<u8> {
    task(&[(0, 'C', 0, 2), (1, 'C', -2, 2), (2, 'B', 1, 6)])
}

#[test]
fn k3_mixed_task() {
    let record = card(5, "CCB");
    assert_eq!(listing(&record, &mixed()), Ok(vec![(0, 10, 4, 4)]));
    let book = Book::new(5, &[0, 0, 1]).unwrap();
    assert_eq!(score_of(&book, &mixed(), 0, 4), (5, 30));
}

#[test]
fn k4_bottom_of_two_and_a_half_rows() {
    let record = card(5, "BC");
    let ranges = listing(&record, &task(&[(0, 'B', 0, 5), (1, 'C', 1, 3)]));
    assert_eq!(ranges, Ok(vec![(0, 10, 5, 5)]));
}

#[test]
fn k5_a_range_over_a_held_cell() {
    let mut record = card(10, "CB");
    let both = task(&[(0, 'C', 0, 2), (1, 'B', 0, 5)]);
    assert_eq!(listing(&record, &both), Ok(vec![(0, 10, 0, 10)]));
    assert_eq!(place(&mut record, &task(&[(0, 'C', 0, 2)]), 1, 0, 2), 0);
    assert_eq!(view(&record, 0), [(0, 2), (4, 20)]);
    assert_eq!(listing(&record, &both), Ok(vec![(0, 10, 0, 10)]));
}

#[test]
fn k6_one_row() {
    let record = card(1, "C");
    let ranges = listing(&record, &task(&[(0, 'C', 0, 2)]));
    assert_eq!(ranges, Ok(vec![(0, 2, 0, 0)]));
    assert_eq!(listing(&record, &task(&[(0, 'C', 0, 4)])), Err(-9));
}

#[test]
fn k7_joining_on_both_sides() {
    let mut record = card(5, "C");
    let one = task(&[(0, 'C', 0, 2)]);
    assert_eq!(place(&mut record, &one, 1, 0, 2), 0);
    assert_eq!(place(&mut record, &one, 2, 0, 4), 0);
    assert_eq!(view(&record, 0), [(0, 2), (6, 10)]);
    assert_eq!(release(&mut record, 1), 0);
    assert_eq!(view(&record, 0), [(0, 4), (6, 10)]);
    assert_eq!(release(&mut record, 2), 0);
    assert_eq!(view(&record, 0), [(0, 10)]);
    assert_eq!(record, card(5, "C"));
}

#[test]
fn k8_touching_blocks() {
    let record = card(5, "C");
    let touching = task(&[(0, 'C', 0, 2), (0, 'C', 2, 4)]);
    assert_eq!(listing(&record, &touching), Err(-5));
    let apart = task(&[(0, 'C', 0, 2), (0, 'C', 4, 6)]);
    assert_eq!(listing(&record, &apart), Ok(vec![(0, 2, 0, 4)]));
}

#[test]
fn k9_no_multiple_of_the_height() {
    let record = card(5, "B");
    assert_eq!(listing(&record, &task(&[(0, 'B', 0, 4)])), Err(-5));
}

#[test]
fn k10_listing_and_choice_beside_a_running_task() {
    let mut record = card(5, "CCB");
    assert_eq!(place(&mut record, &mixed(), 7, 0, 4), 0);
    let tall = task(&[(0, 'C', 0, 4)]);
    let ranges = vec![(0, 2, 0, 0), (0, 2, 6, 6), (1, 2, 6, 6)];
    assert_eq!(listing(&record, &tall), Ok(ranges));
    assert_eq!(choose(&record, &tall), 0);
}

#[test]
fn k18_a_comb_with_each_interval_once() {
    // Free are 0-2 and 4-10. At 0 the comb stands in both, at 4 with both teeth in the upper.
    let one = task(&[(0, 'C', 0, 2)]);
    let comb = task(&[(0, 'C', 0, 2), (0, 'C', 4, 6)]);
    let mut record = card(5, "C");
    assert_eq!(place(&mut record, &one, 1, 0, 2), 0);
    assert_eq!(view(&record, 0), [(0, 2), (4, 10)]);
    let ranges = vec![(0, 2, 0, 0), (0, 2, 4, 4)];
    assert_eq!(listing(&record, &comb), Ok(ranges));
    let mut book = Book::new(5, &[0]).unwrap();
    book.place(&one, 1, 0, 2).unwrap();
    assert_eq!(score_of(&book, &comb, 0, 0), (1, 8));
    assert_eq!(score_of(&book, &comb, 0, 4), (1, 6));
    // 1/8 is less than 1/6. With the upper interval's height for each tooth it would be 1/12.
    assert_eq!(choose(&record, &comb), 0);
}

#[test]
fn what_lies_above_the_last_whole_cell_is_no_cell() {
    let record = card(4, "BCD");
    assert_eq!(view(&record, 0), [(0, 5)]);
    assert_eq!(view(&record, 1), [(0, 8)]);
    assert_eq!(view(&record, 2), [(0, 5)]);
    let top = card(128, "CB");
    assert_eq!(view(&top, 0), [(0, 256)]);
    assert_eq!(view(&top, 1), [(0, 255)]);
}

#[test]
fn a_card_cut_up_by_64_combs() {
    // Every other cell of 32 columns held: 64 ranges in each, and one in the others.
    let mut book = Book::new(128, &[0; 64]).unwrap();
    let comb: Vec<_> = (0..32).map(|k| (0, 'C', 4 * k, 4 * k + 2)).collect();
    let comb = task(&comb);
    let mut number = 0;
    for column in 0..32 {
        for bottom in [2, 130] {
            number += 1;
            assert_eq!(book.place(&comb, number, column, bottom), Ok(()));
        }
    }
    assert_eq!(book.place(&comb, 65, 40, 0), Err(oracle::Refusal::Full));
    let record = oracle::record::record_of(&book);
    assert_eq!(interval_count(&record, 31), 64);
    let ranges = listing(&record, &task(&[(0, 'C', 0, 2)])).unwrap();
    assert_eq!(ranges.len(), 32 * 64 + 32);
}
