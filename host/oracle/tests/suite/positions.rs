//! Listings on random cards, against a second reckoning that knows only half
//! rows and their owners, no cells.

use oracle::arbitrary;
use oracle::fit::{every_position, fits, fitting_positions, Position};
use oracle::listing::Range;
use oracle::rng::Rng;
use oracle::{Book, Refusal, Task};

/// Which half rows of each column are free: below the last cell's top and in no block.
pub fn free_half_rows(book: &Book) -> Vec<Vec<bool>> {
    let device = book.device();
    let mut free: Vec<Vec<bool>> = (0..device.columns())
        .map(|column| vec![true; device.top(column) as usize])
        .collect();
    for entry in book.running().values() {
        for block in entry.task.blocks() {
            let column = entry.position.column as usize + usize::from(block.column);
            let base = entry.position.bottom;
            for half_row in base + i32::from(block.bottom)..base + i32::from(block.top) {
                let place = &mut free[column][half_row as usize];
                assert!(*place, "a half row held twice");
                *place = false;
            }
        }
    }
    free
}

/// Fitting, on half rows.
pub fn fits_on_half_rows(book: &Book, free: &[Vec<bool>], task: &Task, at: Position) -> bool {
    task.blocks().iter().all(|block| {
        let column = at.column as usize + usize::from(block.column);
        let start = at.bottom + i32::from(block.bottom);
        let end = at.bottom + i32::from(block.top);
        book.device().kind(column) == Some(block.kind)
            && i64::from(start).rem_euclid(block.kind.height()) == 0
            && (start..end).all(|row| row >= 0 && free[column].get(row as usize) == Some(&true))
    })
}

#[test]
fn fitting_on_cells_is_fitting_on_half_rows() {
    let mut rng = Rng::new(30);
    let (mut yes, mut no) = (0, 0);
    for _ in 0..300 {
        let book = arbitrary::book(&mut rng, 40);
        let free = free_half_rows(&book);
        let cells = book.free_cells();
        let task = arbitrary::task(&mut rng, book.device(), 5);
        for at in every_position(book.device()) {
            let fit = fits(book.device(), &cells, &task, at);
            assert_eq!(fit, fits_on_half_rows(&book, &free, &task, at));
            *if fit { &mut yes } else { &mut no } += 1;
        }
    }
    assert!(yes > 10_000 && no > 10_000, "{yes} {no}");
}

#[test]
fn no_task_fits_off_the_device() {
    let mut rng = Rng::new(31);
    for _ in 0..200 {
        let book = arbitrary::book(&mut rng, 5);
        let task = arbitrary::task(&mut rng, book.device(), 3);
        let free = book.free_cells();
        let half_rows = book.device().half_rows() as i32;
        let columns = book.device().columns() as u32;
        for bottom in (-300..0).chain(half_rows..half_rows + 300) {
            for column in 0..columns {
                let at = Position { column, bottom };
                assert!(!fits(book.device(), &free, &task, at));
            }
        }
        for column in (columns..columns + 70).chain([255, 256, 65_536, u32::MAX]) {
            let at = Position { column, bottom: 0 };
            assert!(!book.fits(&task, at));
        }
    }
}

#[test]
fn ranges_name_exactly_the_fitting_positions_in_order() {
    let mut rng = Rng::new(32);
    let mut most = 0;
    for _ in 0..600 {
        let book = arbitrary::book(&mut rng, 60);
        let blocks = rng.pick(&[1, 2, 5, 32]);
        let task = arbitrary::task(&mut rng, book.device(), blocks);
        let ranges = book.ranges(&task);
        let named: Vec<Position> = ranges.iter().flat_map(|range| range.positions()).collect();
        let fitting = fitting_positions(book.device(), &book.free_cells(), &task);
        assert_eq!(named, fitting);
        assert!(named.windows(2).all(|pair| pair[0] < pair[1]));
        assert!(ranges.windows(2).all(|pair| are_apart(pair[0], pair[1])));
        let mut output = vec![0; 24_576];
        let expected = match ranges.len() {
            0 => Err(Refusal::NoPosition),
            count => Ok(count),
        };
        assert_eq!(book.list(task.bytes(), &mut output), expected);
        assert_eq!(book.choose(task.bytes()).is_err(), ranges.is_empty());
        most = most.max(ranges.len());
    }
    assert!(most > 50, "{most}");
}

/// Two neighbouring ranges are not one range in two parts.
fn are_apart(low: Range, high: Range) -> bool {
    low.step == high.step
        && (low.column < high.column
            || low.column == high.column && low.last + low.step < high.first)
}

#[test]
fn range_bytes_are_read_back() {
    let range = Range {
        column: 63,
        step: 10,
        first: 4,
        last: 254,
    };
    assert_eq!(range.to_bytes(), [63, 10, 4, 0, 254, 0]);
    assert_eq!(Range::from_bytes(range.to_bytes()), range);
}
