//! Sets of cells, and the intervals that the free cells of a column form.

use crate::device::{Device, MAX_COLUMNS};

/// The most cells that a column has: 128 rows of kind C.
pub const MAX_CELLS: usize = 128;

/// A set of cells, each named by its column and its place in the column.
///
/// For each column one number, with a bit for each cell.
#[derive(Clone, Debug, PartialEq, Eq)]
pub struct CellSet {
    columns: [u128; MAX_COLUMNS],
}

impl CellSet {
    /// The set without cells.
    pub fn empty() -> CellSet {
        CellSet {
            columns: [0; MAX_COLUMNS],
        }
    }

    /// All cells of a device.
    pub fn all_of(device: &Device) -> CellSet {
        let mut set = CellSet::empty();
        for column in 0..device.columns() {
            for cell in 0..device.cells(column) {
                set.insert(column, cell);
            }
        }
        set
    }

    /// Whether the cell is in the set; a cell that no device has never is.
    pub fn contains(&self, column: usize, cell: usize) -> bool {
        let cells = self.columns.get(column).copied().unwrap_or(0);
        cell < MAX_CELLS && cells >> cell & 1 == 1
    }

    /// Adds a cell; answers whether it was not there before.
    ///
    /// # Panics
    /// When no device has such a cell: column over 63 or cell over 127.
    pub fn insert(&mut self, column: usize, cell: usize) -> bool {
        assert!(cell < MAX_CELLS, "no device has such a cell");
        let is_new = !self.contains(column, cell);
        self.columns[column] |= 1 << cell;
        is_new
    }

    /// Takes a cell out; nothing happens when it is not there.
    pub fn remove(&mut self, column: usize, cell: usize) {
        if self.contains(column, cell) {
            self.columns[column] &= !(1 << cell);
        }
    }

    /// How many cells are in the set.
    pub fn len(&self) -> usize {
        self.columns
            .iter()
            .map(|cells| cells.count_ones() as usize)
            .sum()
    }

    /// Whether there is no cell in the set.
    pub fn is_empty(&self) -> bool {
        self.len() == 0
    }
}

/// The half rows of a column from a bottom on and below a top.
#[derive(Clone, Copy, Debug, PartialEq, Eq, Hash)]
pub struct Interval {
    /// The lowest half row.
    pub bottom: i64,
    /// The half row just above the highest.
    pub top: i64,
}

impl Interval {
    /// The height in half rows.
    pub fn height(self) -> i64 {
        self.top - self.bottom
    }

    /// Whether the other interval lies inside this one.
    pub fn holds(self, other: Interval) -> bool {
        self.bottom <= other.bottom && other.top <= self.top
    }

    /// The interval's four record bytes: bottom and top, little-endian.
    pub fn to_bytes(self) -> [u8; 4] {
        let bottom = (self.bottom as u16).to_le_bytes();
        let top = (self.top as u16).to_le_bytes();
        [bottom[0], bottom[1], top[0], top[1]]
    }
}

/// The intervals of a column, from the lowest up: free cells as far as they go on without a gap.
pub fn intervals(device: &Device, free: &CellSet, column: usize) -> Vec<Interval> {
    let height = device.kind(column).map_or(0, |kind| kind.height());
    let cells = device.cells(column);
    let mut runs = Vec::new();
    let mut first_of_run = None;
    // One step past the last cell, so that a run that reaches it ends too.
    for cell in 0..=cells {
        let is_free = cell < cells && free.contains(column, cell);
        match (first_of_run, is_free) {
            (None, true) => first_of_run = Some(cell),
            (Some(first), false) => {
                runs.push(Interval {
                    bottom: height * first as i64,
                    top: height * cell as i64,
                });
                first_of_run = None;
            }
            _ => {}
        }
    }
    runs
}
