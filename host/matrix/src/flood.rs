//! Fragmentation by a flood fill of a cell matrix.
//!
//! The card is held as one flag for each cell of each column. From each free cell that no fill
//! has reached, a fill with a stack takes all free cells that touching joins to it. It takes a
//! whole run of a column at a time, which on open cards is far faster than cell by cell.
//! The record's check is that of `plain`, as it is for the scan.

use std::ops::Range;

use plain::calls::checked;
use plain::fragments::degree;
use plain::layout::*;
use plain::record::{column_intervals, columns, kind};

/// The most cells of a column: a row has one cell of logic.
const MAX_CELLS: usize = MAX_ROWS as usize;

/// A card as a matrix: which cells of which column are free, and not taken yet.
struct Cells {
    // The last flag of a column is of no cell, and never set: every run ends below it.
    free: [[bool; MAX_CELLS + 1]; MAX_COLUMNS],
    heights: [u32; MAX_COLUMNS],
    columns: usize,
}

/// Cells from which a fill has to go on: the column of each, and its place there.
type Stack = Vec<(u8, u8)>;

/// The cells of a height that lie in some half rows, also in part.
fn cells_in(height: u32, half_rows: Range<u32>) -> Range<usize> {
    let Range { start, end } = half_rows;
    // Dividing by a constant is a multiplication.
    let (first, end) = match height {
        2 => (start / 2, end.div_ceil(2)),
        _ => (start / 5, end.div_ceil(5)),
    };
    first as usize..end as usize
}

impl Cells {
    /// The matrix of a sound record, from its intervals: that is shorter than from its entries.
    fn of(record: &Record) -> Cells {
        let mut cells = Cells {
            free: [[false; MAX_CELLS + 1]; MAX_COLUMNS],
            heights: [0; MAX_COLUMNS],
            columns: columns(record),
        };
        for column in 0..cells.columns {
            let height = height(kind(record, column));
            cells.heights[column] = height;
            for interval in column_intervals(record, column) {
                let run = cells_in(height, interval.bottom..interval.top);
                cells.free[column][run].fill(true);
            }
        }
        cells
    }

    /// Takes the run of free cells around one; answers it.
    fn take_run(&mut self, column: usize, cell: usize) -> Range<usize> {
        let free = &mut self.free[column];
        let below = free[..cell].iter().rev().take_while(|free| **free);
        let above = free[cell..].iter().take_while(|free| **free);
        let run = cell - below.count()..cell + above.count();
        free[run.clone()].fill(false);
        run
    }

    /// Puts the lowest cell of each free run of a column on the stack, as far as it lies in some half rows.
    fn push_runs(&self, column: usize, half_rows: Range<u32>, stack: &mut Stack) {
        let cells = cells_in(self.heights[column], half_rows);
        let mut in_run = false;
        for (cell, &free) in cells.clone().zip(&self.free[column][cells]) {
            if free && !in_run {
                stack.push((column as u8, cell as u8));
            }
            in_run = free;
        }
    }

    /// Takes all cells that touching joins to those on the stack; answers how many.
    fn fill(&mut self, stack: &mut Stack) -> u32 {
        let mut taken = 0;
        while let Some((column, cell)) = stack.pop() {
            let (column, cell) = (usize::from(column), usize::from(cell));
            // Several cells of one run may have been put there.
            if !self.free[column][cell] {
                continue;
            }
            let run = self.take_run(column, cell);
            taken += run.len() as u32;
            let height = self.heights[column];
            let half_rows = height * run.start as u32..height * run.end as u32;
            if column > 0 {
                self.push_runs(column - 1, half_rows.clone(), stack);
            }
            if column + 1 < self.columns {
                self.push_runs(column + 1, half_rows, stack);
            }
        }
        taken
    }
}

/// How many connected sets the free cells of a sound record make, and how many free cells there are.
pub fn flood(record: &Record) -> (u32, u32) {
    let mut cells = Cells::of(record);
    let mut stack = Stack::with_capacity(MAX_CELLS);
    let (mut sets, mut free) = (0, 0);
    for column in 0..cells.columns {
        for cell in 0..MAX_CELLS {
            if cells.free[column][cell] {
                stack.push((column as u8, cell as u8));
                free += cells.fill(&mut stack);
                sets += 1;
            }
        }
    }
    (sets, free)
}

/// Fragmentation, with the record's check in front: the sets, −1 or −2.
pub fn fragmentation(record: &[u8], free: &mut i32, degree_of: &mut i32) -> i32 {
    let found = checked(record).map(flood);
    let (sets, cells) = found.unwrap_or_default();
    *free = cells as i32;
    *degree_of = degree(sets, cells) as i32;
    found.map_or_else(|refusal| refusal, |_| sets as i32)
}
