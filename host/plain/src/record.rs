//! The record as a whole: its parts, an empty one, entering and leaving.

use crate::column::{cut, holder, intervals, join, Interval, Part};
use crate::layout::*;
use crate::task::Task;

/// How many columns the device has.
pub fn columns(record: &Record) -> usize {
    usize::from(record[COLUMNS_AT])
}

/// How many tasks run.
pub fn running(record: &Record) -> usize {
    usize::from(record[RUNNING_AT])
}

/// The kind of a column.
pub fn kind(record: &Record, column: usize) -> u8 {
    record[KINDS_AT + column]
}

/// How many intervals a column has.
pub fn count(record: &Record, column: usize) -> usize {
    usize::from(record[COUNTS_AT + column])
}

/// A column's part.
pub fn part(record: &Record, column: usize) -> &Part {
    let bytes = &record[column_part(column)];
    bytes.try_into().expect("a part has 256 bytes")
}

/// A column's intervals, upwards.
pub fn column_intervals(record: &Record, column: usize) -> impl Iterator<Item = Interval> + '_ {
    intervals(part(record, column), count(record, column))
}

/// The interval of a column that holds all half rows from bottom to top, and its number; the hint is where it may be.
pub fn home(
    record: &Record,
    column: usize,
    hint: usize,
    bottom: u32,
    top: u32,
) -> Option<(usize, Interval)> {
    let (part, count) = (part(record, column), count(record, column));
    holder(part, count, hint, bottom, top)
}

/// Changes a column's intervals by a routine that answers their new count.
fn change(record: &mut Record, column: usize, with: impl FnOnce(&mut Part, usize) -> usize) {
    let count = count(record, column);
    let bytes = &mut record[column_part(column)];
    let part = bytes.try_into().expect("a part has 256 bytes");
    record[COUNTS_AT + column] = with(part, count) as u8;
}

/// Writes a device with all cells free into a record of zeros.
pub fn write_device(zeros: &mut Record, rows: u32, kinds: &[u8]) {
    put_word(zeros, ROWS_AT, rows);
    zeros[COLUMNS_AT] = kinds.len() as u8;
    zeros[KINDS_AT..KINDS_AT + kinds.len()].copy_from_slice(kinds);
    for (column, &kind) in kinds.iter().enumerate() {
        // A low card may have a column without a cell, and so without an interval.
        let top = top(kind, rows);
        zeros[COUNTS_AT + column] = u8::from(top > 0);
        put_word(zeros, column_part(column).start + INTERVAL_TOP_AT, top);
    }
}

/// Whether rows and kinds are in their limits.
pub fn device_ok(rows: u32, kinds: &[u8]) -> bool {
    (1..=MAX_ROWS).contains(&rows)
        && (1..=MAX_COLUMNS).contains(&kinds.len())
        && kinds.iter().all(|&kind| kind <= MAX_KIND)
}

/// Whether every block stands in a column of its kind.
pub fn on_columns(record: &Record, task: &Task, column: usize) -> bool {
    column + task.last_column() < columns(record)
        && task
            .blocks()
            .iter()
            .all(|block| kind(record, column + block.column()) == block.kind())
}

/// Whether the task fits at a position, whatever the numbers are.
pub fn fits(record: &Record, task: &Task, column: u32, bottom: i32) -> bool {
    // The first block stands at the position itself, so all other numbers are off the device.
    if column >= MAX_COLUMNS as u32 || !(0..REACH).contains(&bottom) {
        return false;
    }
    let column = column as usize;
    on_columns(record, task, column)
        && task.blocks().iter().all(|block| {
            let (bottom, top) = (bottom + block.bottom(), bottom + block.top());
            bottom >= 0
                && is_whole(block.kind(), bottom as u32)
                && home(
                    record,
                    column + block.column(),
                    0,
                    bottom as u32,
                    top as u32,
                )
                .is_some()
        })
}

/// The place of a number among the running entries: found, or where it would be.
pub fn find(record: &Record, number: u32) -> Result<usize, usize> {
    let entries = record[ENTRIES_AT..].chunks_exact(ENTRY_SIZE);
    for (index, entry) in entries.take(running(record)).enumerate() {
        let other = word(entry, ENTRY_NUMBER_AT);
        if other >= number {
            return if other == number {
                Ok(index)
            } else {
                Err(index)
            };
        }
    }
    Err(running(record))
}

/// A running entry without its task: the number and the position, which is on the device.
#[derive(Clone, Copy)]
pub struct Entry {
    /// The task's number.
    pub number: u32,
    /// The column.
    pub column: usize,
    /// The bottom.
    pub bottom: u32,
}

/// Enters a task that fits, as the running entry of an index, and takes its cells.
pub fn enter(record: &mut Record, index: usize, entry: Entry, task: &Task, bytes: &[u8]) {
    let running = running(record);
    if index < running {
        let later = entry_part(index).start..entry_part(running).start;
        record.copy_within(later, entry_part(index + 1).start);
    }
    let part = &mut record[entry_part(index)];
    put_word(part, ENTRY_NUMBER_AT, entry.number);
    part[ENTRY_COLUMN_AT] = entry.column as u8;
    part[ENTRY_COUNT_AT] = task.blocks().len() as u8;
    put_word(part, ENTRY_BOTTOM_AT, entry.bottom);
    part[BLOCKS_AT..BLOCKS_AT + bytes.len()].copy_from_slice(bytes);
    part[BLOCKS_AT + bytes.len()..].fill(0);
    record[RUNNING_AT] += 1;
    for block in task.blocks() {
        let bottom = entry.bottom.wrapping_add_signed(block.bottom());
        change(record, entry.column + block.column(), |part, count| {
            cut(part, count, bottom, bottom + block.size())
        });
    }
}

/// Takes a running entry out and frees its cells.
pub fn leave(record: &mut Record, index: usize) {
    let part = &record[entry_part(index)];
    let bytes = BLOCK_SIZE * usize::from(part[ENTRY_COUNT_AT]);
    let column = usize::from(part[ENTRY_COLUMN_AT]);
    let bottom = word(part, ENTRY_BOTTOM_AT);
    // A sound record has well-formed tasks only, so none is never met.
    let task = Task::from_bytes(&part[BLOCKS_AT..BLOCKS_AT + bytes]);
    for block in task.iter().flat_map(Task::blocks) {
        let bottom = bottom.wrapping_add_signed(block.bottom());
        change(record, column + block.column(), |part, count| {
            join(part, count, bottom, bottom + block.size())
        });
    }
    let last = running(record) - 1;
    let later = entry_part(index + 1).start..entry_part(last).end;
    record.copy_within(later, entry_part(index).start);
    record[entry_part(last)].fill(0);
    record[RUNNING_AT] -= 1;
}
