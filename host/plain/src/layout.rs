//! Limits, lengths and offsets, under the names that the proved library's model gives them.

use std::ops::Range;

/// The most rows of a device.
pub const MAX_ROWS: u32 = 128;
/// The most columns of a device.
pub const MAX_COLUMNS: usize = 64;
/// The highest kind byte.
pub const MAX_KIND: u8 = 2;
/// How many kinds there are.
pub const KINDS: usize = MAX_KIND as usize + 1;
/// The most blocks of a task.
pub const MAX_BLOCKS: usize = 32;
/// The most running tasks.
pub const MAX_RUNNING: usize = 64;
/// The most intervals of a column.
pub const MAX_INTERVALS: usize = 64;
/// The highest task number.
pub const MAX_NUMBER: u32 = 65_535;
/// How far a block's bottom and top are from 0 at most.
pub const REACH: i32 = 256;

/// The bytes of a record.
pub const RECORD_SIZE: usize = 29_188;
/// Where the rows stand.
pub const ROWS_AT: usize = 0;
/// Where the number of columns stands.
pub const COLUMNS_AT: usize = 2;
/// Where the number of running tasks stands.
pub const RUNNING_AT: usize = 3;
/// Where the kinds of the columns start.
pub const KINDS_AT: usize = 4;
/// Where the interval counts start.
pub const COUNTS_AT: usize = 68;
/// Where the intervals start.
pub const INTERVALS_AT: usize = 132;
/// The bytes of one column's intervals.
pub const COLUMN_SIZE: usize = 256;
/// The bytes of a two-byte number.
pub const WORD_SIZE: usize = 2;
/// The bytes of one interval.
pub const INTERVAL_SIZE: usize = 2 * WORD_SIZE;
/// Where the top stands in an interval; the bottom stands first.
pub const INTERVAL_TOP_AT: usize = 2;
/// Where the running entries start.
pub const ENTRIES_AT: usize = 16_516;
/// The bytes of one running entry.
pub const ENTRY_SIZE: usize = 198;
/// Where the task number stands in an entry.
pub const ENTRY_NUMBER_AT: usize = 0;
/// Where the column stands in an entry.
pub const ENTRY_COLUMN_AT: usize = 2;
/// Where the number of blocks stands in an entry.
pub const ENTRY_COUNT_AT: usize = 3;
/// Where the bottom stands in an entry.
pub const ENTRY_BOTTOM_AT: usize = 4;
/// Where the blocks start in an entry.
pub const BLOCKS_AT: usize = 6;
/// The bytes of one block.
pub const BLOCK_SIZE: usize = 6;
/// The bytes of one range of a listing.
pub const RANGE_SIZE: usize = 6;
/// Where the step stands in a range.
pub const RANGE_STEP_AT: usize = 1;
/// Where the first bottom stands in a range.
pub const RANGE_FIRST_AT: usize = 2;
/// Where the last bottom stands in a range.
pub const RANGE_LAST_AT: usize = 4;
/// The least output of list.
pub const LIST_ROOM: usize = 24_576;
/// What a column counts for in the answer of choose.
pub const COLUMN_WEIGHT: i32 = 1024;

/// A record: the length is in the type, so that fixed offsets need no test.
pub type Record = [u8; RECORD_SIZE];

/// The height of a kind's cells in half rows. Kinds above 2 are refused before anyone asks.
pub fn height(kind: u8) -> u32 {
    match kind {
        0 => 2,
        _ => 5,
    }
}

/// The cell of a column in which a half row lies.
pub fn cell(kind: u8, half_row: u32) -> u32 {
    // A division by a constant is a multiplication.
    match kind {
        0 => half_row / 2,
        _ => half_row / 5,
    }
}

/// Whether so many half rows are whole cells of a kind.
pub fn is_whole(kind: u8, half_rows: u32) -> bool {
    height(kind) * cell(kind, half_rows) == half_rows
}

/// How many whole cells a column has.
pub fn cells(kind: u8, rows: u32) -> u32 {
    cell(kind, 2 * rows)
}

/// The top of the last whole cell of a column.
pub fn top(kind: u8, rows: u32) -> u32 {
    height(kind) * cells(kind, rows)
}

/// The little-endian two-byte number at a place.
pub fn word(bytes: &[u8], at: usize) -> u32 {
    u32::from(u16::from_le_bytes([bytes[at], bytes[at + 1]]))
}

/// Writes a little-endian two-byte number at a place.
pub fn put_word(bytes: &mut [u8], at: usize, value: u32) {
    bytes[at..at + 2].copy_from_slice(&(value as u16).to_le_bytes());
}

/// The bytes of a running entry.
pub fn entry_part(index: usize) -> Range<usize> {
    let start = ENTRIES_AT + ENTRY_SIZE * index;
    start..start + ENTRY_SIZE
}

/// The bytes of a column's intervals.
pub fn column_part(column: usize) -> Range<usize> {
    let start = INTERVALS_AT + COLUMN_SIZE * column;
    start..start + COLUMN_SIZE
}
