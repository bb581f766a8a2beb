//! Limits, lengths and byte offsets of the model (`docs/MODEL.md`), each once, with the names that the proved code has for them.
//!
//! Whoever uses [`bytes`](crate::bytes) reads records, tasks and listings with
//! these; [`Card`](crate::Card) needs none of them. `host/card.h` has the same
//! ones for C, with `CARD_` before each name.
//!
//! ```
//! use card::{bytes, layout};
//!
//! let mut record = vec![0; layout::RECORD_SIZE];
//! assert_eq!(bytes::new(&mut record, 5, &[0, 1]), 0);
//! // The top of column 1's only interval: 10 half rows, in two bytes.
//! let interval = layout::INTERVALS_AT + layout::COLUMN_SIZE;
//! let top = interval + layout::INTERVAL_TOP_AT;
//! assert_eq!(record[top..top + 2], [10, 0]);
//! ```

/// The most rows of a device.
pub const MAX_ROWS: u16 = 128;
/// The most columns of a device.
pub const MAX_COLUMNS: usize = 64;
/// The most blocks of a task.
pub const MAX_BLOCKS: usize = 32;
/// The most tasks that run on a card.
pub const MAX_RUNNING: usize = 64;
/// The most free intervals of a column.
pub const MAX_INTERVALS: usize = 64;
/// A block's bottom is at least minus this, and its top at most this.
pub const REACH: i16 = 256;

/// The bytes of a record.
pub const RECORD_SIZE: usize = 29_188;
/// The bytes of the shortest output that list takes.
pub const LIST_ROOM: usize = 24_576;
/// The bytes of a block.
pub const BLOCK_SIZE: usize = 6;
/// The bytes of a range.
pub const RANGE_SIZE: usize = 6;
/// The bytes of an interval.
pub const INTERVAL_SIZE: usize = 4;
/// The bytes of one column's intervals.
pub const COLUMN_SIZE: usize = 256;
/// The bytes of a running entry.
pub const ENTRY_SIZE: usize = 198;

/// In a record: rows (2 bytes).
pub const ROWS_AT: usize = 0;
/// In a record: columns.
pub const COLUMNS_AT: usize = 2;
/// In a record: how many tasks run.
pub const RUNNING_AT: usize = 3;
/// In a record: the kind of each column.
pub const KINDS_AT: usize = 4;
/// In a record: the interval count of each column.
pub const COUNTS_AT: usize = 68;
/// In a record: column 0's intervals, upwards; each next column's are [`COLUMN_SIZE`] further on.
pub const INTERVALS_AT: usize = 132;
/// In a record: the running entries, by rising number.
pub const ENTRIES_AT: usize = 16_516;

/// In an interval: its bottom (2 bytes).
pub const INTERVAL_BOTTOM_AT: usize = 0;
/// In an interval: its top (2 bytes), excluded.
pub const INTERVAL_TOP_AT: usize = 2;

/// In a running entry: its task number (2 bytes).
pub const ENTRY_NUMBER_AT: usize = 0;
/// In a running entry: the column where it was placed.
pub const ENTRY_COLUMN_AT: usize = 2;
/// In a running entry: how many blocks it has.
pub const ENTRY_COUNT_AT: usize = 3;
/// In a running entry: the bottom where it was placed (2 bytes).
pub const ENTRY_BOTTOM_AT: usize = 4;
/// In a running entry: the blocks.
pub const BLOCKS_AT: usize = 6;

/// In a block: its column, from the task's first one.
pub const BLOCK_COLUMN_AT: usize = 0;
/// In a block: its kind.
pub const BLOCK_KIND_AT: usize = 1;
/// In a block: its bottom (2 bytes, signed), from the first block's bottom.
pub const BLOCK_BOTTOM_AT: usize = 2;
/// In a block: its top (2 bytes, signed), excluded.
pub const BLOCK_TOP_AT: usize = 4;

/// In a range: its column.
pub const RANGE_COLUMN_AT: usize = 0;
/// In a range: its step.
pub const RANGE_STEP_AT: usize = 1;
/// In a range: the first bottom (2 bytes).
pub const RANGE_FIRST_AT: usize = 2;
/// In a range: the last bottom (2 bytes).
pub const RANGE_LAST_AT: usize = 4;

/// Choose answers column × this + bottom.
pub const COLUMN_WEIGHT: u32 = 1_024;
