//! How broken up a card is (document 02, W1): into how many sets its free cells fall,
//! how many free cells there are, and the degree that is reckoned from these two.
//!
//! The sets are found by a flood that goes from cell to touching cell. It knows
//! nothing of intervals, so a fault in these cannot hide here.

use crate::cells::{CellSet, Interval};
use crate::device::Device;

/// The degree of a card on which no two free cells touch: 100 percent, in hundredths of one.
pub const WHOLE_DEGREE: i64 = 10_000;

/// A cell: its column, and its place in the column, from 0.
pub type Cell = (usize, usize);

/// The three numbers that say how broken up a card is.
#[derive(Clone, Copy, Debug, PartialEq, Eq, Hash)]
pub struct Fragmentation {
    /// How many connected sets the free cells form.
    pub sets: i64,
    /// How many cells are free.
    pub free: i64,
    /// The degree, in hundredths of a percent.
    pub degree: i64,
}

/// The three numbers, from a device and its free cells.
pub fn fragmentation(device: &Device, free: &CellSet) -> Fragmentation {
    let sets = connected_sets(device, free);
    let free = free.len() as i64;
    let degree = degree(sets, free);
    Fragmentation { sets, free, degree }
}

/// The degree of so many sets of so many free cells, rounded down.
pub fn degree(sets: i64, free: i64) -> i64 {
    if free <= 1 {
        // There is nothing that could be apart, and nothing to divide by.
        return 0;
    }
    // Free cells form at least one set, so nothing is negative and division rounds down.
    WHOLE_DEGREE * (sets - 1) / (free - 1)
}

/// The half rows of a cell; none where the device has no such cell.
pub fn half_rows(device: &Device, cell: Cell) -> Option<Interval> {
    let (column, place) = cell;
    if place >= device.cells(column) {
        return None;
    }
    let height = device.kind(column)?.height();
    let bottom = height * place as i64;
    let top = bottom + height;
    Some(Interval { bottom, top })
}

/// Whether two cells of the device touch; what is no cell touches nothing.
pub fn touch(device: &Device, one: Cell, other: Cell) -> bool {
    let (Some(a), Some(b)) = (half_rows(device, one), half_rows(device, other)) else {
        return false;
    };
    match one.0.abs_diff(other.0) {
        // In one column: one begins where the other ends.
        0 => a.top == b.bottom || b.top == a.bottom,
        // Side by side: a half row is in both. To meet at an end is not enough.
        1 => a.bottom.max(b.bottom) < a.top.min(b.top),
        _ => false,
    }
}

/// Into how many connected sets the free cells fall.
pub fn connected_sets(device: &Device, free: &CellSet) -> i64 {
    let mut left = free.clone();
    let mut sets = 0;
    for column in 0..device.columns() {
        for place in 0..device.cells(column) {
            // A cell that is still there belongs to none of the sets before.
            if left.contains(column, place) {
                take_out(device, &mut left, (column, place));
                sets += 1;
            }
        }
    }
    sets
}

/// Takes a cell out, and every cell that touching joins to it.
fn take_out(device: &Device, left: &mut CellSet, first: Cell) {
    left.remove(first.0, first.1);
    // Cells that are out already, and whose neighbours are still to be looked at.
    let mut waiting = vec![first];
    while let Some(cell) = waiting.pop() {
        for next in cells_near(device, cell) {
            if left.contains(next.0, next.1) && touch(device, cell, next) {
                left.remove(next.0, next.1);
                waiting.push(next);
            }
        }
    }
}

/// The cells among which are all that touch a cell, so that not every cell has to be asked.
///
/// These are at most one column away, and have a half row from just below the cell to just
/// above it. Places over the last cell of a column may be among them; no set has those.
fn cells_near(device: &Device, cell: Cell) -> Vec<Cell> {
    let Some(rows) = half_rows(device, cell) else {
        return Vec::new();
    };
    let mut near = Vec::new();
    for column in cell.0.saturating_sub(1)..=cell.0 + 1 {
        let Some(kind) = device.kind(column) else {
            continue;
        };
        let lowest = (rows.bottom - 1).max(0) / kind.height();
        let highest = rows.top / kind.height();
        near.extend((lowest..=highest).map(|place| (column, place as usize)));
    }
    near
}
