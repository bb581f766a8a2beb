//! Combs on random small cards: teeth that share an interval, or stand in several, in one
//! column or more; n, s and the choice against the reckoning on half rows.

use crate::choices::{reached, runs, score_on_half_rows, standing, Marks};
use crate::positions::free_half_rows;
use oracle::choice::{score, Score};
use oracle::fit::fitting_positions;
use oracle::rng::Rng;
use oracle::task::{bytes_of, Block};
use oracle::{Book, Kind, Position, Task};

/// A block of so many cells, from a cell of the device on.
fn block(column: usize, kind: Kind, cell: usize, size: usize) -> Block {
    let height = kind.height() as i16;
    Block {
        column: column as u8,
        kind,
        bottom: height * cell as i16,
        top: height * (cell + size) as i16,
    }
}

/// A card of up to three low columns, with a few single cells held.
fn small_card(rng: &mut Rng) -> Book {
    let columns = 1 + rng.below(3);
    let kinds: Vec<u8> = (0..columns).map(|_| rng.pick(&[0, 0, 0, 1, 2])).collect();
    let mut book = Book::new(rng.between(4, 20) as u32, &kinds).unwrap();
    for number in 1..=rng.below(3 * columns) as u32 {
        let column = rng.below(columns);
        let kind = book.device().kinds()[column];
        let cell = rng.below(book.device().cells(column)) as i32;
        let one = bytes_of(&[block(0, kind, 0, 1)]);
        // Refused where the cell is held already, and then there is one task less.
        let _ = book.place(&one, number, column as u32, kind.height() as i32 * cell);
    }
    book
}

/// A comb: two to four short teeth in one column of the card or in each of two neighbours.
fn comb(rng: &mut Rng, book: &Book) -> Task {
    let kinds = book.device().kinds();
    let origin = rng.below(kinds.len());
    let mut blocks = Vec::new();
    for (column, &kind) in kinds[origin..].iter().take(1 + rng.below(2)).enumerate() {
        let mut cell = rng.below(2);
        for _ in 0..2 + rng.below(3) {
            let size = rng.pick(&[1, 1, 2]);
            blocks.push(block(column, kind, cell, size));
            cell += size + rng.pick(&[1, 1, 2]);
        }
    }
    let base = blocks[0].bottom;
    for block in &mut blocks {
        block.bottom -= base;
        block.top -= base;
    }
    Task::from_blocks(&blocks).unwrap()
}

/// Which kinds of sharing came up, as numbers of positions.
#[derive(Debug, Default)]
struct Seen {
    /// All blocks in one interval.
    all_in_one: usize,
    /// Several intervals of one column, and blocks that share one.
    some_in_one: usize,
    /// Intervals alike in two columns, and blocks that share one.
    alike: usize,
    /// Each block in an interval of its own.
    each_alone: usize,
}

impl Seen {
    /// Adds a position.
    fn add(&mut self, free: &Marks, task: &Task, at: Position) {
        let by_column: Vec<_> = reached(free, task, at).iter().map(|r| runs(r)).collect();
        let holders: usize = by_column.iter().map(|runs| runs.len()).sum();
        let shares = holders < task.blocks().len();
        let several = by_column.iter().any(|runs| runs.len() > 1);
        let all: Vec<_> = by_column.iter().flatten().collect();
        let alike = (0..all.len()).any(|i| all[..i].contains(&all[i]));
        self.all_in_one += usize::from(holders == 1);
        self.some_in_one += usize::from(shares && several);
        self.alike += usize::from(shares && alike);
        self.each_alone += usize::from(!shares);
    }
}

#[test]
fn weights_of_combs_agree_on_half_rows() {
    let mut rng = Rng::new(42);
    let mut seen = Seen::default();
    for _ in 0..2000 {
        let book = small_card(&mut rng);
        let free = free_half_rows(&book);
        let cells = book.free_cells();
        let comb = comb(&mut rng, &book);
        for at in fitting_positions(book.device(), &cells, &comb) {
            let score = score(book.device(), &cells, &comb, at);
            assert_eq!(score, Some(score_on_half_rows(&free, &comb, at)));
            seen.add(&free, &comb, at);
        }
    }
    assert!(seen.all_in_one > 500 && seen.some_in_one > 500, "{seen:?}");
    assert!(seen.alike > 100 && seen.each_alone > 100, "{seen:?}");
}

/// The first of the positions with the least n / s.
fn first_of_the_least(fitting: &[Position], score: impl Fn(Position) -> Score) -> Option<Position> {
    let ratio_order = |&a: &Position, &b: &Position| {
        let (a, b) = (score(a), score(b));
        (a.pieces * b.stretch).cmp(&(b.pieces * a.stretch))
    };
    // Of those that are equal, min_by takes the first.
    fitting.iter().copied().min_by(ratio_order)
}

/// Another s, which adds an interval's height for each block in it: not the one that counts.
fn stretch_by_blocks(free: &Marks, task: &Task, at: Position) -> i64 {
    let height_around = |block: &Block| {
        let (column, rows) = standing(block, at);
        let around = runs(&free[column]);
        let holder = around
            .iter()
            .find(|run| (run.0..run.1).contains(&rows.start));
        holder.map_or(0, |run| (run.1 - run.0) as i64)
    };
    task.blocks().iter().map(height_around).sum()
}

#[test]
fn combs_are_chosen_by_intervals_not_by_blocks() {
    let mut rng = Rng::new(43);
    let (mut chosen, mut elsewhere) = (0, 0);
    for _ in 0..2000 {
        let book = small_card(&mut rng);
        let free = free_half_rows(&book);
        let comb = comb(&mut rng, &book);
        let fitting = fitting_positions(book.device(), &book.free_cells(), &comb);
        let least = first_of_the_least(&fitting, |at| score_on_half_rows(&free, &comb, at));
        assert_eq!(book.choose(comb.bytes()).ok(), least);
        let other = first_of_the_least(&fitting, |at| Score {
            stretch: stretch_by_blocks(&free, &comb, at),
            ..score_on_half_rows(&free, &comb, at)
        });
        chosen += usize::from(least.is_some());
        elsewhere += usize::from(other != least);
    }
    // The cards tell the two sums apart.
    assert!(chosen > 500 && elsewhere > 100, "{chosen} {elsewhere}");
}
