//! How broken up random cards are, against a second way of counting, which knows half
//! rows only and joins the cells pair by pair.

use std::collections::BTreeSet;
use std::ops::Range;

use crate::fragments::numbers;
use crate::helpers::{kinds, task};
use crate::positions::free_half_rows;
use oracle::arbitrary;
use oracle::book::MAX_RUNNING;
use oracle::cells::CellSet;
use oracle::fragments::{connected_sets, half_rows, touch, Cell, Fragmentation};
use oracle::record::record_of;
use oracle::rng::Rng;
use oracle::sound::read;
use oracle::{Book, Device};

/// A cell as its column and its half rows.
type Rows = (usize, Range<usize>);

/// The free cells of a book, from its free half rows.
fn free_cells(book: &Book) -> Vec<Rows> {
    let mut found = Vec::new();
    for (column, free) in free_half_rows(book).iter().enumerate() {
        let height = book.device().kinds()[column].height() as usize;
        for (place, rows) in free.chunks_exact(height).enumerate() {
            assert!(rows.iter().all(|&row| row == rows[0]), "half a cell held");
            if rows[0] {
                found.push((column, height * place..height * (place + 1)));
            }
        }
    }
    found
}

/// Touching, half row by half row.
fn rows_touch(one: &Rows, other: &Rows) -> bool {
    let same_column = one.0 == other.0;
    let is_next = one.1.end == other.1.start || other.1.end == one.1.start;
    let beside = one.0 + 1 == other.0 || other.0 + 1 == one.0;
    let shares = one.1.clone().any(|row| other.1.contains(&row));
    same_column && is_next || beside && shares
}

/// The number of sets: each cell begins as a set, and the sets of two that touch are
/// made one, over all pairs again and again, until nothing changes.
fn sets_by_merging(cells: &[Rows]) -> usize {
    let mut set_of: Vec<usize> = (0..cells.len()).collect();
    let mut changed = true;
    while changed {
        changed = false;
        for i in 0..cells.len() {
            for j in 0..i {
                let (old, new) = (set_of[i], set_of[j]);
                if old != new && rows_touch(&cells[i], &cells[j]) {
                    let both = set_of.iter_mut().filter(|set| **set == old);
                    both.for_each(|set| *set = new);
                    changed = true;
                }
            }
        }
    }
    set_of.iter().collect::<BTreeSet<_>>().len()
}

/// A random book on a device of at most 14 rows and 7 columns.
fn small_book(rng: &mut Rng) -> Book {
    let palette: &[u8] = rng.pick(&[&[0][..], &[1], &[0, 1], &[0, 1, 2], &[0, 0, 0, 1, 2]]);
    let rows = rng.between(1, 14) as u32;
    let columns = rng.between(1, 7);
    let kinds: Vec<u8> = (0..columns).map(|_| rng.pick(palette)).collect();
    let mut book = Book::new(rows, &kinds).unwrap();
    if rng.percent(50) {
        make_calls(rng, &mut book);
    } else {
        scatter(rng, &mut book);
    }
    book
}

/// Makes random places and releases.
fn make_calls(rng: &mut Rng, book: &mut Book) {
    let mut mood = arbitrary::mood(rng);
    mood.ask = 0;
    for _ in 0..rng.pick(&[0, 2, 6, 20, 60]) {
        let call = arbitrary::call(rng, book, mood);
        call.on_book(book);
    }
}

/// Takes cells here and there, each with a task of its own: many small sets are left.
fn scatter(rng: &mut Rng, book: &mut Book) {
    let chance = rng.pick(&[20, 40, 50, 60]);
    let device = book.device().clone();
    let mut number = 0;
    for (column, kind) in device.kinds().iter().enumerate() {
        let height = kind.height() as i32;
        for place in 0..device.cells(column) as i32 {
            if rng.percent(chance) && number < MAX_RUNNING as u32 {
                number += 1;
                let one = task(&[(0, kind.letter().into(), 0, height as i16)]);
                let placed = book.place(&one, number, column as u32, height * place);
                assert_eq!(placed, Ok(()));
            }
        }
    }
}

#[test]
fn the_flood_finds_what_merging_finds() {
    let mut rng = Rng::new(70);
    // Cards with no set, with one, with 2 to 4, with more.
    let mut seen = [0; 4];
    for _ in 0..3000 {
        let book = small_book(&mut rng);
        let cells = free_cells(&book);
        let sets = sets_by_merging(&cells);
        let found = book.fragmentation();
        assert_eq!(found.sets, sets as i64, "{book:?}");
        assert_eq!(found.free, cells.len() as i64, "{book:?}");
        assert!(is_the_floor(found), "{found:?}");
        seen[match sets {
            0 => 0,
            1 => 1,
            2..=4 => 2,
            _ => 3,
        }] += 1;
    }
    assert!(seen.iter().all(|&cards| cards > 200), "{seen:?}");
}

/// Whether the degree is the greatest number that is not above the share; 0 without one.
fn is_the_floor(found: Fragmentation) -> bool {
    let (parted, most) = (found.sets - 1, found.free - 1);
    if most <= 0 {
        return found.degree == 0;
    }
    found.degree * most <= 10_000 * parted && 10_000 * parted < (found.degree + 1) * most
}

#[test]
fn touching_agrees_half_row_by_half_row() {
    // Kinds of equal and of different heights side by side; columns 9 and 10, and cells
    // above the last ones, are not there.
    let device = Device::new(13, &kinds("CCBBDDCDB")).unwrap();
    let places: Vec<Cell> = (0..11)
        .flat_map(|column| (0..15).map(move |place| (column, place)))
        .collect();
    let rows_of = |cell: Cell| {
        let rows = half_rows(&device, cell)?;
        Some((cell.0, rows.bottom as usize..rows.top as usize))
    };
    let cells = places.iter().filter_map(|&cell| rows_of(cell)).count();
    assert_eq!(cells, 3 * 13 + 6 * 5);
    for &one in &places {
        for &other in &places {
            let expected = match (rows_of(one), rows_of(other)) {
                (Some(a), Some(b)) => rows_touch(&a, &b),
                _ => false,
            };
            assert_eq!(touch(&device, one, other), expected, "{one:?} {other:?}");
        }
    }
}

/// How many cells of a set touch a cell.
fn touching(device: &Device, cells: &CellSet, cell: Cell) -> i64 {
    let all = (0..device.columns())
        .flat_map(|column| (0..device.cells(column)).map(move |place| (column, place)));
    let others = all.filter(|&(column, place)| cells.contains(column, place));
    others.filter(|&other| touch(device, cell, other)).count() as i64
}

#[test]
fn a_free_cell_less() {
    // Its set is gone if nothing touched it; else the set falls into no more parts than
    // there are cells that touched it.
    let mut rng = Rng::new(71);
    for _ in 0..200 {
        let book = small_book(&mut rng);
        let device = book.device();
        let free = book.free_cells();
        let others = connected_sets(device, &free) - 1;
        for column in 0..device.columns() {
            for place in (0..device.cells(column)).filter(|&k| free.contains(column, k)) {
                let mut less = free.clone();
                less.remove(column, place);
                let beside = touching(device, &less, (column, place));
                let parts = connected_sets(device, &less) - others;
                assert!((beside.min(1)..=beside).contains(&parts));
            }
        }
    }
}

#[test]
fn damaged_records() {
    let mut rng = Rng::new(72);
    let (mut sound, mut unsound) = (0, 0);
    for _ in 0..1000 {
        let mut record = record_of(&arbitrary::book(&mut rng, 10));
        arbitrary::damage(&mut rng, &mut record);
        let expected = match read(&record) {
            Err(_) => {
                unsound += 1;
                (-2, 0, 0)
            }
            Ok(book) => {
                sound += 1;
                let found = book.fragmentation();
                (found.sets as i32, found.free as i32, found.degree as i32)
            }
        };
        assert_eq!(numbers(&record), expected);
    }
    assert!(sound > 10 && unsound > 500, "{sound} {unsound}");
}
