//! List, choose and fragmentation on a cell matrix: the other measure of speed.
//!
//! List and choose scan, the naive way. The card is held as one flag for each half
//! row of each column, made from the record's running entries, and every position
//! is tried. Fragmentation is a flood fill, in a file of its own. The record's check
//! and the reading of a task are those of `plain`, so that a difference in time is
//! one of the search alone.

#![deny(missing_docs)]
#![forbid(unsafe_code)]

mod flood;

use plain::calls::{checked, refusal, task};
use plain::layout::*;
use plain::record::{columns, kind, running};
use plain::task::{Block, Task};

pub use flood::{flood, fragmentation};

/// The most half rows of a device.
const MAX_HALF_ROWS: usize = 2 * MAX_ROWS as usize;

/// What a call gives, or its refusal's number.
type Answer = Result<i32, i32>;

/// A card as a matrix: which half rows of which column are free.
pub struct Matrix {
    free: [[bool; MAX_HALF_ROWS]; MAX_COLUMNS],
    kinds: [u8; MAX_COLUMNS],
    columns: usize,
    half_rows: i32,
}

impl Matrix {
    /// The matrix of a sound record, from its device and its running entries.
    pub fn of(record: &Record) -> Matrix {
        let rows = word(record, ROWS_AT);
        let mut matrix = Matrix {
            free: [[false; MAX_HALF_ROWS]; MAX_COLUMNS],
            kinds: [0; MAX_COLUMNS],
            columns: columns(record),
            half_rows: 2 * rows as i32,
        };
        for column in 0..matrix.columns {
            let kind = kind(record, column);
            matrix.kinds[column] = kind;
            matrix.free[column][..top(kind, rows) as usize].fill(true);
        }
        for index in 0..running(record) {
            matrix.hold(&record[entry_part(index)]);
        }
        matrix
    }

    /// Takes the cells of a running entry.
    fn hold(&mut self, entry: &[u8]) {
        let column = usize::from(entry[ENTRY_COLUMN_AT]);
        let bottom = word(entry, ENTRY_BOTTOM_AT) as i32;
        let end = BLOCKS_AT + BLOCK_SIZE * usize::from(entry[ENTRY_COUNT_AT]);
        let task = Task::from_bytes(&entry[BLOCKS_AT..end]);
        for block in task.iter().flat_map(Task::blocks) {
            let (bottom, top) = (bottom + block.bottom(), bottom + block.top());
            self.free[column + block.column()][bottom as usize..top as usize].fill(false);
        }
    }

    /// Whether a block, moved to a position, covers free cells of its kind only.
    fn block_fits(&self, block: &Block, column: usize, bottom: i32) -> bool {
        let column = column + block.column();
        let (bottom, top) = (bottom + block.bottom(), bottom + block.top());
        column < self.columns
            && self.kinds[column] == block.kind()
            && bottom >= 0
            && top <= self.half_rows
            && (bottom as u32).is_multiple_of(height(block.kind()))
            && self.free[column][bottom as usize..top as usize]
                .iter()
                .all(|&free| free)
    }

    /// Whether a task fits at a position.
    fn fits(&self, task: &Task, column: usize, bottom: i32) -> bool {
        task.blocks()
            .iter()
            .all(|block| self.block_fits(block, column, bottom))
    }

    /// The free run around the half rows from bottom to top.
    fn home(&self, column: usize, bottom: usize, top: usize) -> (usize, usize) {
        let column = &self.free[column];
        let below = column[..bottom].iter().rev().take_while(|&&free| free);
        let above = column[top..].iter().take_while(|&&free| free);
        (bottom - below.count(), top + above.count())
    }

    /// n and s of a fitting position: pieces and stretch. A free run counts once in the stretch.
    fn score(&self, task: &Task, column: usize, bottom: i32) -> (u32, u32) {
        let (mut pieces, mut stretch) = (0, 0);
        let mut previous = None;
        for block in task.blocks() {
            let here = column + block.column();
            let top = (bottom + block.top()) as usize;
            let bottom = (bottom + block.bottom()) as usize;
            let (start, end) = self.home(here, bottom, top);
            // Blocks of one run follow each other. The first counts the run's height, and the piece
            // below it: the piece between two blocks is the one above the lower block.
            if previous != Some((here, start)) {
                pieces += u32::from(start < bottom);
                stretch += (end - start) as u32;
            }
            pieces += u32::from(top < end);
            previous = Some((here, start));
        }
        (pieces, stretch)
    }

    /// Every position at which the task fits, by column and then by bottom.
    fn positions<'a>(&'a self, task: &'a Task) -> impl Iterator<Item = (usize, i32)> + 'a {
        (0..self.columns)
            .flat_map(|column| (0..self.half_rows).map(move |bottom| (column, bottom)))
            .filter(|&(column, bottom)| self.fits(task, column, bottom))
    }
}

/// The step of a task's ranges.
fn step(task: &Task) -> i32 {
    let some_logic = task.blocks().iter().any(|block| block.kind() == 0);
    let some_other = task.blocks().iter().any(|block| block.kind() != 0);
    match (some_logic, some_other) {
        (true, true) => 10,
        (true, false) => 2,
        _ => 5,
    }
}

/// List, with the record's check in front.
pub fn list(record: &[u8], task: &[u8], output: &mut [u8]) -> i32 {
    let listed = checked(record).and_then(|record| search_list(record, task, output));
    listed.unwrap_or_else(|refusal| refusal)
}

/// Choose, with the record's check in front.
pub fn choose(record: &[u8], task: &[u8]) -> i32 {
    let chosen = checked(record).and_then(|record| search_choose(record, task));
    chosen.unwrap_or_else(|refusal| refusal)
}

/// List on a record that is known to be sound: the search alone.
pub fn search_list(record: &Record, bytes: &[u8], output: &mut [u8]) -> Answer {
    let task = task(bytes)?;
    if output.len() < LIST_ROOM {
        return Err(refusal::OUTPUT_SHORT);
    }
    let step = step(&task);
    let mut count = 0;
    let mut previous = None;
    for (column, bottom) in Matrix::of(record).positions(&task) {
        // In one column all fitting bottoms are whole steps apart, so a run goes on or ends here.
        if previous != Some((column, bottom - step)) {
            let range = &mut output[RANGE_SIZE * count..RANGE_SIZE * (count + 1)];
            range[0] = column as u8;
            range[RANGE_STEP_AT] = step as u8;
            put_word(range, RANGE_FIRST_AT, bottom as u32);
            count += 1;
        }
        let last = RANGE_SIZE * (count - 1) + RANGE_LAST_AT;
        put_word(output, last, bottom as u32);
        previous = Some((column, bottom));
    }
    match count {
        0 => Err(refusal::NO_POSITION),
        _ => Ok(count as i32),
    }
}

/// Choose on a record that is known to be sound: the search alone.
pub fn search_choose(record: &Record, bytes: &[u8]) -> Answer {
    let task = task(bytes)?;
    let matrix = Matrix::of(record);
    let mut best: Option<(i32, u32, u32)> = None;
    for (column, bottom) in matrix.positions(&task) {
        let (pieces, stretch) = matrix.score(&task, column, bottom);
        if best.is_none_or(|(_, least, over)| pieces * over < least * stretch) {
            best = Some((COLUMN_WEIGHT * column as i32 + bottom, pieces, stretch));
        }
    }
    best.map(|(answer, _, _)| answer)
        .ok_or(refusal::NO_POSITION)
}
