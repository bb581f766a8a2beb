//! The ranges of a task: fitting bottoms that follow each other by a step, as many in one as can be.

use crate::cells::CellSet;
use crate::device::Device;
use crate::fit::{fits, Position};
use crate::task::Task;

/// The bytes of one range.
pub const RANGE_SIZE: usize = 6;
/// The least output that list takes.
pub const LIST_ROOM: usize = 24_576;

/// A range: a column, and the bottoms from a first to a last one in equal steps.
#[derive(Clone, Copy, Debug, PartialEq, Eq, Hash)]
pub struct Range {
    /// The column of the positions.
    pub column: u32,
    /// How far the positions are apart, in half rows.
    pub step: i32,
    /// The lowest bottom.
    pub first: i32,
    /// The highest bottom.
    pub last: i32,
}

impl Range {
    /// The range's six bytes: column, step, first and last.
    pub fn to_bytes(self) -> [u8; RANGE_SIZE] {
        let first = (self.first as u16).to_le_bytes();
        let last = (self.last as u16).to_le_bytes();
        let column = self.column as u8;
        let step = self.step as u8;
        [column, step, first[0], first[1], last[0], last[1]]
    }

    /// Reads a range's six bytes.
    pub fn from_bytes(bytes: [u8; RANGE_SIZE]) -> Range {
        Range {
            column: u32::from(bytes[0]),
            step: i32::from(bytes[1]),
            first: i32::from(u16::from_le_bytes([bytes[2], bytes[3]])),
            last: i32::from(u16::from_le_bytes([bytes[4], bytes[5]])),
        }
    }

    /// The positions that the range names, upwards.
    pub fn positions(self) -> Vec<Position> {
        let column = self.column;
        (self.first..=self.last)
            .step_by(self.step.max(1) as usize)
            .map(|bottom| Position { column, bottom })
            .collect()
    }
}

/// The ranges in the first bytes of a listing's output.
pub fn read_ranges(output: &[u8], count: usize) -> Vec<Range> {
    output
        .chunks_exact(RANGE_SIZE)
        .take(count)
        .map(|b| Range::from_bytes([b[0], b[1], b[2], b[3], b[4], b[5]]))
        .collect()
}

/// The ranges of a task, by column and then by first, found by trying every position.
pub fn ranges(device: &Device, free: &CellSet, task: &Task) -> Vec<Range> {
    (0..device.columns() as u32)
        .flat_map(|column| column_ranges(device, free, task, column))
        .collect()
}

/// The ranges in one column: each starts where the bottom one step below does not fit.
fn column_ranges(device: &Device, free: &CellSet, task: &Task, column: u32) -> Vec<Range> {
    let step = task.step() as i32;
    let fitting: Vec<bool> = (0..device.half_rows() as i32)
        .map(|bottom| fits(device, free, task, Position { column, bottom }))
        .collect();
    let fits_at = |bottom: i32| {
        let index = usize::try_from(bottom).ok();
        index.is_some_and(|index| fitting.get(index) == Some(&true))
    };
    let mut found = Vec::new();
    for first in 0..fitting.len() as i32 {
        if !fits_at(first) || fits_at(first - step) {
            continue;
        }
        let mut last = first;
        while fits_at(last + step) {
            last += step;
        }
        found.push(Range {
            column,
            step,
            first,
            last,
        });
    }
    found
}
