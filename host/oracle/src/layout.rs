//! Where things stand in the 29,188 bytes of a record.

use std::ops::Range;

/// The bytes of a record.
pub const RECORD_SIZE: usize = 29_188;
/// Where the rows stand, two bytes.
pub const ROWS_AT: usize = 0;
/// Where the number of columns stands, one byte.
pub const COLUMNS_AT: usize = 2;
/// Where the number of running tasks stands, one byte.
pub const RUNNING_AT: usize = 3;
/// Where the 64 kind bytes start.
pub const KINDS_AT: usize = 4;
/// Where the 64 interval counts start.
pub const COUNTS_AT: usize = 68;
/// Where the 64 parts of 64 intervals start.
pub const INTERVALS_AT: usize = 132;
/// The bytes of one interval.
pub const INTERVAL_SIZE: usize = 4;
/// In an interval: top, two bytes; the bottom stands first.
pub const INTERVAL_TOP_AT: usize = 2;
/// The most intervals that a column has room for.
pub const MAX_INTERVALS: usize = 64;
/// The bytes of one column's intervals.
pub const COLUMN_SIZE: usize = 256;
/// Where the 64 running entries start.
pub const ENTRIES_AT: usize = 16_516;
/// The bytes of one running entry.
pub const ENTRY_SIZE: usize = 198;
/// In an entry: task number, two bytes.
pub const ENTRY_NUMBER_AT: usize = 0;
/// In an entry: column, one byte.
pub const ENTRY_COLUMN_AT: usize = 2;
/// In an entry: block count, one byte.
pub const ENTRY_COUNT_AT: usize = 3;
/// In an entry: bottom, two bytes.
pub const ENTRY_BOTTOM_AT: usize = 4;
/// In an entry: the blocks, behind all the rest.
pub const BLOCKS_AT: usize = 6;

/// The bytes of a column's intervals.
pub fn column_part(column: usize) -> Range<usize> {
    let start = INTERVALS_AT + COLUMN_SIZE * column;
    start..start + COLUMN_SIZE
}

/// The bytes of a running entry.
pub fn entry_part(index: usize) -> Range<usize> {
    let start = ENTRIES_AT + ENTRY_SIZE * index;
    start..start + ENTRY_SIZE
}

/// The little-endian two-byte number at a place.
pub fn word(bytes: &[u8], at: usize) -> u16 {
    u16::from_le_bytes([bytes[at], bytes[at + 1]])
}

/// Writes a little-endian two-byte number at a place.
pub fn put_word(bytes: &mut [u8], at: usize, value: u16) {
    bytes[at..at + 2].copy_from_slice(&value.to_le_bytes());
}
