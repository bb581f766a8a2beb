//! Whether bytes are a sound record, judged rule by rule (MODEL 9.2 to 9.8), and
//! the book that a sound record stands for.
//!
//! Nothing here writes a record and compares: the parts are read, and each rule
//! is checked on what was read.

use std::collections::BTreeMap;
use std::fmt;
use std::ops::Range;

use crate::book::{Book, Running, MAX_RUNNING};
use crate::cells::CellSet;
use crate::device::{Device, MAX_COLUMNS, MAX_ROWS};
use crate::fit::{cells_of, Position};
use crate::layout::*;
use crate::refusal::Refusal;
use crate::task::{Task, BLOCK_SIZE, MAX_BLOCKS};

/// The first rule found that a record breaks.
#[derive(Clone, Copy, Debug, PartialEq, Eq, Hash)]
pub enum Unsound {
    /// It has another length.
    Length,
    /// No device has so many rows, or so few.
    Rows,
    /// No device has so many columns, or so few.
    Columns,
    /// A column's kind is no kind.
    Kind,
    /// More tasks run than may.
    RunningCount,
    /// A column has more intervals than places for them.
    IntervalCount,
    /// A running task has no blocks, or too many.
    BlockCount,
    /// A running number is 0.
    NumberZero,
    /// A running number is not above the one before it.
    NumbersRise,
    /// A running task is not well-formed.
    NotWellFormed,
    /// A running task does not fit where it stands, even by itself.
    Misfit,
    /// A cell has two holders.
    SharedCell,
    /// A column's intervals are not those of its free cells, or not in their order.
    Intervals,
    /// A byte that stands for nothing is not 0.
    Unused,
}

impl fmt::Display for Unsound {
    fn fmt(&self, f: &mut fmt::Formatter<'_>) -> fmt::Result {
        write!(f, "the record is not sound: {self:?}")
    }
}

impl std::error::Error for Unsound {}

/// The table's refusal: a wrong length is −1, all else is −2.
impl From<Unsound> for Refusal {
    fn from(unsound: Unsound) -> Refusal {
        match unsound {
            Unsound::Length => Refusal::RecordLength,
            _ => Refusal::RecordNotSound,
        }
    }
}

/// Judges the bytes and reads a sound record's device and book.
pub fn read(record: &[u8]) -> Result<Book, Unsound> {
    if record.len() != RECORD_SIZE {
        return Err(Unsound::Length);
    }
    let device = read_device(record)?;
    check_counts(record)?;
    let running = read_running(record)?;
    let free = free_cells(&device, &running)?;
    for column in 0..device.columns() {
        check_intervals(&device, &free, column, record)?;
    }
    check_unused(&device, running.len(), record)?;
    Ok(Book::from_parts(device, running))
}

/// Whether the bytes are a sound record.
pub fn is_sound(record: &[u8]) -> bool {
    read(record).is_ok()
}

/// The device, if rows, columns and kinds are a device's.
fn read_device(record: &[u8]) -> Result<Device, Unsound> {
    let rows = u32::from(word(record, ROWS_AT));
    if !(1..=MAX_ROWS).contains(&rows) {
        return Err(Unsound::Rows);
    }
    let columns = usize::from(record[COLUMNS_AT]);
    if !(1..=MAX_COLUMNS).contains(&columns) {
        return Err(Unsound::Columns);
    }
    Device::new(rows, &record[KINDS_AT..KINDS_AT + columns]).map_err(|_| Unsound::Kind)
}

/// That there are places for so many running tasks and intervals.
fn check_counts(record: &[u8]) -> Result<(), Unsound> {
    if usize::from(record[RUNNING_AT]) > MAX_RUNNING {
        return Err(Unsound::RunningCount);
    }
    let counts = &record[COUNTS_AT..COUNTS_AT + MAX_COLUMNS];
    if counts.iter().any(|&n| usize::from(n) > MAX_INTERVALS) {
        return Err(Unsound::IntervalCount);
    }
    Ok(())
}

/// The running tasks, if all are well-formed and each has a higher number than the one before it.
fn read_running(record: &[u8]) -> Result<BTreeMap<u16, Running>, Unsound> {
    let mut running = BTreeMap::new();
    let mut previous = None;
    for index in 0..usize::from(record[RUNNING_AT]) {
        let entry = &record[entry_part(index)];
        let number = word(entry, ENTRY_NUMBER_AT);
        if number == 0 {
            return Err(Unsound::NumberZero);
        }
        if previous.is_some_and(|previous| number <= previous) {
            return Err(Unsound::NumbersRise);
        }
        previous = Some(number);
        running.insert(number, read_entry(entry)?);
    }
    Ok(running)
}

/// One entry's task and position.
fn read_entry(entry: &[u8]) -> Result<Running, Unsound> {
    let blocks = usize::from(entry[ENTRY_COUNT_AT]);
    if !(1..=MAX_BLOCKS).contains(&blocks) {
        return Err(Unsound::BlockCount);
    }
    let bytes = &entry[BLOCKS_AT..BLOCKS_AT + BLOCK_SIZE * blocks];
    let task = Task::from_bytes(bytes).map_err(|_| Unsound::NotWellFormed)?;
    let position = Position {
        column: u32::from(entry[ENTRY_COLUMN_AT]),
        bottom: i32::from(word(entry, ENTRY_BOTTOM_AT)),
    };
    Ok(Running { task, position })
}

/// The free cells, if each task fits by itself and no cell has two holders.
fn free_cells(device: &Device, running: &BTreeMap<u16, Running>) -> Result<CellSet, Unsound> {
    let mut held = CellSet::empty();
    let mut free = CellSet::all_of(device);
    for entry in running.values() {
        let cells = cells_of(device, &entry.task, entry.position).ok_or(Unsound::Misfit)?;
        for (column, cell) in cells {
            if !held.insert(column, cell) {
                return Err(Unsound::SharedCell);
            }
            free.remove(column, cell);
        }
    }
    Ok(free)
}

/// That the listed intervals are those of the column's free cells, from the lowest up.
fn check_intervals(
    device: &Device,
    free: &CellSet,
    column: usize,
    record: &[u8],
) -> Result<(), Unsound> {
    let count = usize::from(record[COUNTS_AT + column]);
    let part = &record[column_part(column)];
    let mut listed = CellSet::empty();
    let mut previous_top = None;
    for interval in part.chunks_exact(INTERVAL_SIZE).take(count) {
        let bottom = i64::from(word(interval, 0));
        let top = i64::from(word(interval, INTERVAL_TOP_AT));
        if previous_top.is_some_and(|previous| bottom < previous) {
            return Err(Unsound::Intervals);
        }
        previous_top = Some(top);
        let run = maximal_free_run(device, free, column, bottom, top);
        for cell in run.ok_or(Unsound::Intervals)? {
            listed.insert(column, cell);
        }
    }
    // Nothing free is left out.
    let all_listed = (0..device.cells(column))
        .all(|cell| listed.contains(column, cell) == free.contains(column, cell));
    if all_listed {
        Ok(())
    } else {
        Err(Unsound::Intervals)
    }
}

/// The cells from bottom to top, if these are free and the next ones on either side are not.
fn maximal_free_run(
    device: &Device,
    free: &CellSet,
    column: usize,
    bottom: i64,
    top: i64,
) -> Option<Range<usize>> {
    let height = device.kind(column)?.height();
    let are_cells = bottom % height == 0 && top % height == 0;
    if !are_cells || bottom >= top || top > device.top(column) {
        return None;
    }
    let cells = (bottom / height) as usize..(top / height) as usize;
    let is_free = |cell: usize| cell < device.cells(column) && free.contains(column, cell);
    let free_below = cells.start > 0 && is_free(cells.start - 1);
    let free_above = is_free(cells.end);
    let all_free = cells.clone().all(is_free);
    (all_free && !free_below && !free_above).then_some(cells)
}

/// All bytes that stand for nothing are 0.
fn check_unused(device: &Device, running: usize, record: &[u8]) -> Result<(), Unsound> {
    let is_zero = |part: &[u8]| part.iter().all(|&byte| byte == 0);
    let columns = device.columns();
    let mut good = is_zero(&record[KINDS_AT + columns..COUNTS_AT]);
    good &= is_zero(&record[COUNTS_AT + columns..INTERVALS_AT]);
    for column in 0..MAX_COLUMNS {
        // The count of a column that the device has not is 0, or unused bytes are not.
        let used = INTERVAL_SIZE * usize::from(record[COUNTS_AT + column]);
        good &= is_zero(&record[column_part(column)][used..]);
    }
    for index in 0..MAX_RUNNING {
        let entry = &record[entry_part(index)];
        let blocks = usize::from(entry[ENTRY_COUNT_AT]);
        let used = BLOCKS_AT + BLOCK_SIZE * blocks;
        let used = if index < running { used } else { 0 };
        good &= is_zero(&entry[used..]);
    }
    if good {
        Ok(())
    } else {
        Err(Unsound::Unused)
    }
}
