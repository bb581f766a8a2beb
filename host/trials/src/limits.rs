//! Cards at the limits: listings of thousands of ranges, columns cut into 64 intervals, tasks over all
//! columns and half rows, 64 running tasks of 32 blocks, and arguments far outside.

use calls::Calls;
use oracle::history::Call;
use oracle::task::{bytes_of, Block, MAX_BLOCKS};
use oracle::{Book, Device, Kind, Position};

use crate::pair::Pair;
use crate::shapes::{block, choose_call, comes_and_goes, list_call, place_call, unused_number};
use crate::{ensure, Trial};

/// The highest number of a task.
const LAST_NUMBER: u32 = 65_535;

/// The largest device, with columns of these kinds.
fn largest(kind: impl Fn(u8) -> Kind) -> Device {
    let kinds: Vec<u8> = (0..64).map(|column| kind(column).byte()).collect();
    Device::new(128, &kinds).expect("the limits are kept")
}

/// Logic in columns 0 and 63 only, so that few positions are to be tried.
fn logic_at_both_ends(column: u8) -> Kind {
    match column {
        0 | 63 => Kind::C,
        1..32 => Kind::B,
        _ => Kind::D,
    }
}

/// So many blocks of one cell in one column, a block in every so many cells.
fn comb(kind: Kind, teeth: usize, pitch: i16) -> Vec<u8> {
    let height = kind.height() as i16;
    let tooth = |index| block(0, kind, pitch * height * index as i16, 1);
    bytes_of(&(0..teeth).map(tooth).collect::<Vec<_>>())
}

/// The position of a cell.
fn at_cell(column: usize, kind: Kind, cell: usize) -> Position {
    Position {
        column: column as u32,
        bottom: kind.height() as i32 * cell as i32,
    }
}

/// Lists on a card of 64 logic columns, in each of which one task holds every fourth cell, and chooses
/// for so many of the tasks that were listed.
///
/// The longest of the listings has 63 ranges in each column; answers how many that was.
pub fn thousands_of_ranges(subject: &dyn Calls, choices: usize) -> Trial<i32> {
    let mut book = Book::on(largest(|_| Kind::C));
    for column in 0..64 {
        let at = at_cell(column, Kind::C, 0);
        let task = comb(Kind::C, MAX_BLOCKS, 4);
        let placed = book.place(&task, LAST_NUMBER - column as u32, at.column, at.bottom);
        ensure(placed.is_ok(), || format!("{placed:?} in column {column}"))?;
    }
    let mut pair = Pair::on_book(subject, book);
    let next_column = bytes_of(&[block(0, Kind::C, 0, 1), block(1, Kind::C, 4, 1)]);
    let tasks = [
        comb(Kind::C, MAX_BLOCKS, 4),
        comb(Kind::C, 2, 2),
        comb(Kind::C, 1, 1),
        next_column,
    ];
    let mut most = 0;
    for task in &tasks {
        most = most.max(pair.call(&list_call(task))?);
    }
    // The first has few positions; each of the others has thousands to be scored.
    for task in tasks.iter().take(choices) {
        pair.call(&choose_call(task))?;
    }
    Ok(most)
}

/// Cuts the columns at both ends into 64 intervals, and a memory and a multiplier column into 25, and
/// makes them whole again; counts and lists on the way. Answers the most intervals of a column.
pub fn columns_full_of_intervals(subject: &dyn Calls) -> Trial<i32> {
    let mut pair = Pair::new(subject, largest(logic_at_both_ends))?;
    let mut most = 0;
    for column in [31, 62, 63, 0] {
        let kind = pair.book().device().kinds()[column];
        // Cells 1, 3, 5, .. are held, by tasks of four of them each.
        let first_cells = (1..pair.book().device().cells(column)).step_by(8);
        for cell in first_cells.filter(|cell| cell + 7 <= kind.cells(128)) {
            let number = unused_number(pair.book());
            let at = at_cell(column, kind, cell);
            pair.call(&place_call(&comb(kind, 4, 2), number, at))?;
            most = most.max(pair.count(column as u32)?);
        }
        pair.call(&list_call(&comb(kind, 1, 1)))?;
    }
    pair.call(&choose_call(&comb(Kind::C, 1, 1)))?;
    make_whole(pair)?;
    Ok(most)
}

/// Releases all tasks, the numbers that are odd first, and counts each time in the columns at both ends.
fn make_whole(mut pair: Pair) -> Trial<()> {
    let numbers: Vec<u16> = pair.book().running().keys().copied().collect();
    let (odd, even): (Vec<u16>, Vec<u16>) = numbers.iter().partition(|&number| number % 2 == 1);
    for number in odd.into_iter().chain(even) {
        let number = u32::from(number);
        pair.call(&Call::Release { number })?;
        for column in [0, 63] {
            pair.count(column)?;
        }
    }
    Ok(())
}

/// Tasks with a block of all half rows, over all columns, or as far down as a block may be.
fn greatest_tasks() -> Vec<Vec<Block>> {
    let foot = block(0, Kind::C, 0, 1);
    let odd_columns = (3..64).step_by(2);
    let blocks = odd_columns.map(|column| block(column, logic_at_both_ends(column), 0, 1));
    let over_all_columns = [foot].into_iter().chain(blocks).collect();
    vec![
        vec![block(0, Kind::C, 0, 128)],
        vec![block(0, Kind::B, 0, 51)],
        vec![block(0, Kind::D, 0, 51)],
        vec![foot, block(63, Kind::C, 0, 128)],
        // From the highest cell of column 0 down to the lowest of column 63, and up again.
        vec![foot, block(63, Kind::C, -254, 128)],
        vec![foot, block(63, Kind::C, 254, 1)],
        vec![
            foot,
            block(1, Kind::B, -250, 51),
            block(63, Kind::C, -250, 1),
        ],
        // Half rows −256 to 256 can be named, yet no device has them all.
        vec![foot, block(63, Kind::C, -256, 256)],
        over_all_columns,
    ]
}

/// Tasks that go one past a limit, for which there is no cell and no column.
fn tasks_past_the_limits() -> Vec<Vec<Block>> {
    let foot = block(0, Kind::C, 0, 1);
    vec![
        vec![block(0, Kind::C, 0, 129)],
        vec![foot, block(64, Kind::C, 0, 1)],
        vec![foot, block(1, Kind::B, -257, 51)],
        vec![foot, block(1, Kind::B, 252, 1)],
        vec![foot; MAX_BLOCKS + 1],
    ]
}

/// Lists, chooses, places and releases the greatest tasks on the largest device; answers how many fitted.
pub fn greatest(subject: &dyn Calls) -> Trial<usize> {
    let pair = Pair::new(subject, largest(logic_at_both_ends))?;
    let mut fitting = 0;
    for blocks in greatest_tasks().into_iter().chain(tasks_past_the_limits()) {
        let task = bytes_of(&blocks);
        fitting += usize::from(comes_and_goes(&pair, &task)?);
        let mut pair = pair.clone();
        for bottom in [0, 2, 254, 256] {
            let at = Position { column: 0, bottom };
            pair.call(&place_call(&task, 1, at))?;
        }
    }
    Ok(fitting)
}

/// Runs 64 tasks of 32 blocks, one in each column, and makes calls on the full card; answers how many
/// blocks there were.
pub fn many_tasks(subject: &dyn Calls) -> Trial<usize> {
    let mut pair = Pair::new(subject, largest(|_| Kind::C))?;
    let task = comb(Kind::C, MAX_BLOCKS, 4);
    // Numbers neither rise nor fall, and 65,535 and 1 are among them.
    let number = |column: usize| 1 + (column as u32 * 37 % 64) * (LAST_NUMBER - 1) / 63;
    for column in 0..64 {
        let at = at_cell(column, Kind::C, 0);
        pair.call(&place_call(&task, number(column), at))?;
    }
    let blocks = pair.book().running().len() * MAX_BLOCKS;
    full_refusals(&mut pair, &task)?;
    // Out of places all over the entries, and in again one cell higher.
    for column in [0, 63, 31, 5] {
        let number = number(column);
        pair.call(&Call::Release { number })?;
        pair.call(&place_call(&task, number, at_cell(column, Kind::C, 1)))?;
        pair.count(column as u32)?;
    }
    Ok(blocks)
}

/// Placing while 64 tasks run: what is refused before that, and what would be refused after it.
fn full_refusals(pair: &mut Pair, task: &[u8]) -> Trial<()> {
    let free = at_cell(0, Kind::C, 1);
    let held = at_cell(0, Kind::C, 0);
    pair.call(&place_call(task, 2, free))?;
    pair.call(&place_call(task, 2, held))?;
    pair.call(&place_call(task, 1, free))?;
    pair.call(&place_call(task, LAST_NUMBER + 1, free))?;
    pair.call(&place_call(&task[1..], 2, free))?;
    pair.call(&Call::Release { number: 2 })?;
    Ok(())
}

/// What a number is, and is not, once bits are cut off it.
const TOO_HIGH: [u32; 5] = [1 << 8, 1 << 16, 1 << 24, 1 << 31, u32::MAX << 8];

/// Makes calls whose column, number or bottom is right but for high bits; answers how many were refused.
pub fn past_the_limits(subject: &dyn Calls) -> Trial<usize> {
    let mut pair = Pair::new(subject, largest(logic_at_both_ends))?;
    let task = comb(Kind::C, 1, 1);
    let numbers = [1, 255, 256, 257, LAST_NUMBER];
    for (index, &number) in numbers.iter().enumerate() {
        pair.call(&place_call(&task, number, at_cell(63, Kind::C, 2 * index)))?;
    }
    let free = at_cell(0, Kind::C, 0);
    let mut refused = 0;
    for high in TOO_HIGH {
        for column in (0..64).map(|column| column + high) {
            refused += usize::from(pair.count(column)? < 0);
        }
        let far = [
            (2, free.column + high, free.bottom),
            (3, free.column, free.bottom.wrapping_add(high as i32)),
        ];
        for (number, column, bottom) in far {
            let at = Position { column, bottom };
            refused += usize::from(pair.call(&place_call(&task, number, at))? < 0);
        }
        for number in numbers.map(|number| number.wrapping_add(high)) {
            refused += usize::from(pair.clone().call(&place_call(&task, number, free))? < 0);
            refused += usize::from(pair.clone().call(&Call::Release { number })? < 0);
        }
    }
    Ok(refused)
}
