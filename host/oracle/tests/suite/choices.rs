//! The choice on random cards: it fits, it is minimal, ties go low; n and s
//! against a second reckoning on half rows.

use std::ops::Range;

use crate::helpers::{card, score_of, task};
use crate::positions::{fits_on_half_rows, free_half_rows};
use oracle::arbitrary;
use oracle::calls::{choose, place};
use oracle::choice::{score, Score};
use oracle::fit::fitting_positions;
use oracle::rng::Rng;
use oracle::task::Block;
use oracle::{Book, Position, Task};

/// Half rows by column, each marked or not.
pub type Marks = Vec<Vec<bool>>;

/// The maximal runs of true, as first and one past the last.
pub fn runs(free: &[bool]) -> Vec<(usize, usize)> {
    let starts = (0..free.len()).filter(|&i| free[i] && (i == 0 || !free[i - 1]));
    let end = |start: usize| (start..free.len()).find(|&i| !free[i]);
    starts
        .map(|start| (start, end(start).unwrap_or(free.len())))
        .collect()
}

/// The column and the half rows on which a block comes to stand.
pub fn standing(block: &Block, at: Position) -> (usize, Range<usize>) {
    let column = at.column as usize + usize::from(block.column);
    let start = at.bottom + i32::from(block.bottom);
    let end = at.bottom + i32::from(block.top);
    (column, start as usize..end as usize)
}

/// Marks the half rows that can be reached from a block, up and down over free ones.
///
/// What two blocks both reach is marked once.
pub fn reached(free: &Marks, task: &Task, at: Position) -> Marks {
    let mut marks: Marks = free.iter().map(|rows| vec![false; rows.len()]).collect();
    for block in task.blocks() {
        let (column, rows) = standing(block, at);
        let is_free = |row: &usize| free[column][*row];
        let down = (0..rows.start).rev().take_while(is_free);
        let up = (rows.start..free[column].len()).take_while(is_free);
        for row in down.chain(up) {
            marks[column][row] = true;
        }
    }
    marks
}

/// n and s on half rows: s is how many are reached, n is the runs of these that no block covers.
pub fn score_on_half_rows(free: &Marks, task: &Task, at: Position) -> Score {
    let mut left = reached(free, task, at);
    let stretch = left.iter().flatten().filter(|&&mark| mark).count() as i64;
    for block in task.blocks() {
        let (column, rows) = standing(block, at);
        left[column][rows].fill(false);
    }
    let pieces = left.iter().map(|rows| runs(rows).len() as i64).sum();
    Score { pieces, stretch }
}

/// How many intervals hold a block, on half rows: what is reached are whole intervals, and
/// no two of them touch.
fn holders_on_half_rows(free: &Marks, task: &Task, at: Position) -> usize {
    let marks = reached(free, task, at);
    marks.iter().map(|rows| runs(rows).len()).sum()
}

#[test]
fn weights_agree_on_half_rows() {
    let mut rng = Rng::new(40);
    let (mut scored, mut sharing) = (0, 0);
    for _ in 0..250 {
        let book = arbitrary::book(&mut rng, 40);
        let free = free_half_rows(&book);
        let cells = book.free_cells();
        let task = arbitrary::task(&mut rng, book.device(), 6);
        let fitting = fitting_positions(book.device(), &cells, &task);
        for &at in fitting.iter().take(60) {
            assert!(fits_on_half_rows(&book, &free, &task, at));
            let score = score(book.device(), &cells, &task, at);
            assert_eq!(score, Some(score_on_half_rows(&free, &task, at)));
            let holders = holders_on_half_rows(&free, &task, at);
            sharing += usize::from(holders < task.blocks().len());
            scored += 1;
        }
    }
    assert!(scored > 3000 && sharing > 1000, "{scored} {sharing}");
}

#[test]
fn the_chosen_position_is_the_first_of_the_least() {
    let mut rng = Rng::new(41);
    let mut not_the_first = 0;
    for _ in 0..250 {
        let book = arbitrary::book(&mut rng, 50);
        let free = free_half_rows(&book);
        let task = arbitrary::task(&mut rng, book.device(), 4);
        let fitting = fitting_positions(book.device(), &book.free_cells(), &task);
        let Ok(chosen) = book.choose(task.bytes()) else {
            assert!(fitting.is_empty());
            continue;
        };
        let least = score_on_half_rows(&free, &task, chosen);
        for &at in &fitting {
            let score = score_on_half_rows(&free, &task, at);
            let order = (least.pieces * score.stretch).cmp(&(score.pieces * least.stretch));
            assert!(order.is_le(), "a lesser one");
            assert!(order.is_lt() || chosen <= at, "a lower one alike");
        }
        not_the_first += usize::from(fitting.first() != Some(&chosen));
    }
    assert!(not_the_first > 20, "{not_the_first}");
}

#[test]
fn two_blocks_in_one_interval() {
    // The interval is counted once, and so is what is left of it.
    let book = Book::new(10, &[0]).unwrap();
    let apart = task(&[(0, 'C', 0, 2), (0, 'C', 4, 6)]);
    assert_eq!(score_of(&book, &apart, 0, 0), (2, 20));
    assert_eq!(score_of(&book, &apart, 0, 2), (3, 20));
    assert_eq!(score_of(&book, &apart, 0, 14), (2, 20));
}

#[test]
fn alike_intervals_of_two_columns_are_two() {
    // Both columns have 0-6 and 8-20 free.
    let mut book = Book::new(10, &[0, 0]).unwrap();
    let pair = task(&[(0, 'C', 0, 2), (1, 'C', 0, 2)]);
    book.place(&pair, 1, 0, 6).unwrap();
    assert_eq!(book.intervals(0), book.intervals(1));
    assert_eq!(score_of(&book, &pair, 0, 0), (2, 12));
    assert_eq!(score_of(&book, &pair, 0, 2), (4, 12));
    assert_eq!(score_of(&book, &pair, 0, 8), (2, 24));
    // Two teeth in each column: still two intervals.
    let combs = [
        (0, 'C', 0, 2),
        (0, 'C', 4, 6),
        (1, 'C', 0, 2),
        (1, 'C', 4, 6),
    ];
    assert_eq!(score_of(&book, &task(&combs), 0, 0), (2, 12));
    assert_eq!(score_of(&book, &task(&combs), 0, 10), (6, 24));
    // Alike in columns of two kinds, 0-10 each.
    let book = Book::new(5, &[1, 2]).unwrap();
    let mixed = task(&[(0, 'B', 0, 5), (1, 'D', 0, 5)]);
    assert_eq!(score_of(&book, &mixed, 0, 5), (2, 20));
}

#[test]
fn three_blocks_in_two_intervals() {
    // Free are 0-6 and 8-20; two blocks in the lower, then two in the upper, then all three.
    let mut book = Book::new(10, &[0]).unwrap();
    book.place(&task(&[(0, 'C', 0, 2)]), 1, 0, 6).unwrap();
    let even = task(&[(0, 'C', 0, 2), (0, 'C', 4, 6), (0, 'C', 8, 10)]);
    assert_eq!(score_of(&book, &even, 0, 0), (2, 18));
    let wide = task(&[(0, 'C', 0, 2), (0, 'C', 8, 10), (0, 'C', 12, 14)]);
    assert_eq!(score_of(&book, &wide, 0, 0), (3, 18));
    assert_eq!(score_of(&book, &even, 0, 8), (3, 12));
}

#[test]
fn a_held_interval_is_no_remaining_one() {
    // Column 0 is split by a held cell; only the part that holds the block counts.
    let mut book = Book::new(10, &[0]).unwrap();
    book.place(&task(&[(0, 'C', 0, 2)]), 1, 0, 6).unwrap();
    assert_eq!(score_of(&book, &task(&[(0, 'C', 0, 2)]), 0, 2), (2, 6));
    assert_eq!(score_of(&book, &task(&[(0, 'C', 0, 2)]), 0, 0), (1, 6));
    assert_eq!(score_of(&book, &task(&[(0, 'C', 0, 6)]), 0, 0), (0, 6));
    assert_eq!(score_of(&book, &task(&[(0, 'C', 0, 2)]), 0, 8), (1, 12));
}

#[test]
fn least_ratio_not_least_count() {
    // 1/12 in the upper part beats 1/6 in the lower.
    let mut record = card(10, "C");
    let one = task(&[(0, 'C', 0, 2)]);
    assert_eq!(place(&mut record, &one, 1, 0, 6), 0);
    assert_eq!(choose(&record, &one), 8);
    // 1/14 in the free column beats 1/4 below the held cells.
    let mut record = card(7, "CC");
    assert_eq!(place(&mut record, &task(&[(0, 'C', 0, 10)]), 1, 1, 4), 0);
    assert_eq!(choose(&record, &one), 0);
    // No interval left at all is least.
    let exact = task(&[(0, 'C', 0, 4)]);
    assert_eq!(choose(&record, &exact), 1024);
}
