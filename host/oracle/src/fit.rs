//! Positions, the cells that a moved block covers, and whether a task fits.

use std::ops::Range;

use crate::cells::{CellSet, Interval};
use crate::device::Device;
use crate::task::{Block, Task};

/// What choose multiplies a column by in its answer.
pub const COLUMN_WEIGHT: i32 = 1024;

/// A position: where the first block's column and bottom come to stand.
#[derive(Clone, Copy, Debug, PartialEq, Eq, Hash, PartialOrd, Ord)]
pub struct Position {
    /// The column of the device.
    pub column: u32,
    /// The bottom, in half rows.
    pub bottom: i32,
}

impl Position {
    /// The number with which choose answers it: column × 1,024 + bottom.
    pub fn answer(self) -> i32 {
        // Nothing wraps for positions on a device, and choose answers no others.
        let column = self.column as i32;
        column.wrapping_mul(COLUMN_WEIGHT).wrapping_add(self.bottom)
    }

    /// The position that choose answers with a number.
    pub fn of_answer(answer: i32) -> Position {
        Position {
            column: (answer / COLUMN_WEIGHT) as u32,
            bottom: answer % COLUMN_WEIGHT,
        }
    }
}

/// The half rows of a block, moved to a position.
pub fn moved(block: &Block, at: Position) -> Interval {
    Interval {
        bottom: i64::from(at.bottom) + i64::from(block.bottom),
        top: i64::from(at.bottom) + i64::from(block.top),
    }
}

/// The device column of a block, moved to a position, if there is one.
pub fn moved_column(device: &Device, block: &Block, at: Position) -> Option<usize> {
    // Added in 64 bits: a position's column is any 32-bit number.
    let column = u64::from(at.column) + u64::from(block.column);
    let column = usize::try_from(column).ok()?;
    (column < device.columns()).then_some(column)
}

/// The cells of a moved block, as its column and the run of cells in it.
///
/// None unless the device has the column, with the block's kind, and the block begins
/// where a cell does and ends no higher than the last one.
pub fn block_cells(device: &Device, block: &Block, at: Position) -> Option<(usize, Range<usize>)> {
    let column = moved_column(device, block, at)?;
    if device.kind(column) != Some(block.kind) {
        return None;
    }
    let height = block.kind.height();
    let moved = moved(block, at);
    let starts_well = moved.bottom >= 0 && moved.bottom % height == 0;
    if !starts_well || moved.top > device.top(column) {
        return None;
    }
    let cells = (moved.bottom / height) as usize..(moved.top / height) as usize;
    Some((column, cells))
}

/// All cells that a task covers at a position, or none if it does not fit there even by itself.
pub fn cells_of(device: &Device, task: &Task, at: Position) -> Option<Vec<(usize, usize)>> {
    let mut all = Vec::new();
    for block in task.blocks() {
        let (column, cells) = block_cells(device, block, at)?;
        all.extend(cells.map(|cell| (column, cell)));
    }
    Some(all)
}

/// Whether the task fits at the position, given the free cells.
pub fn fits(device: &Device, free: &CellSet, task: &Task, at: Position) -> bool {
    task.blocks().iter().all(|block| {
        let Some((column, mut cells)) = block_cells(device, block, at) else {
            return false;
        };
        cells.all(|cell| free.contains(column, cell))
    })
}

/// Every position on the device, by column and then by bottom.
///
/// A task's first block stands at the position itself, so no task fits elsewhere.
pub fn every_position(device: &Device) -> impl Iterator<Item = Position> {
    let half_rows = device.half_rows() as i32;
    let columns = device.columns() as u32;
    (0..columns)
        .flat_map(move |column| (0..half_rows).map(move |bottom| Position { column, bottom }))
}

/// Every position at which the task fits, by column and then by bottom.
pub fn fitting_positions(device: &Device, free: &CellSet, task: &Task) -> Vec<Position> {
    every_position(device)
        .filter(|&at| fits(device, free, task, at))
        .collect()
}
