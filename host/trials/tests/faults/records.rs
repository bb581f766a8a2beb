//! Faults of the test of a record: what is not sound is taken, or what is sound is refused.
//! The list says what each of them is.

use oracle::layout::*;
use oracle::task::{bytes_of, read_blocks, Block, Task, BLOCK_SIZE};

use crate::changes::put_intervals;

/// Whether the bytes are as many as a record has.
fn is_sized(record: &[u8]) -> bool {
    record.len() == RECORD_SIZE
}

/// The bytes with something done to them, where they are as many as a record has.
fn changed(record: &[u8], change: impl FnOnce(&mut [u8])) -> Vec<u8> {
    let mut taken = record.to_vec();
    if is_sized(record) {
        change(&mut taken);
    }
    taken
}

/// The entries in use; a record that is not sound may name more than there are.
fn entries(record: &[u8]) -> std::ops::Range<usize> {
    0..usize::from(record[RUNNING_AT]).min(64)
}

/// The columns in use, likewise.
fn columns(record: &[u8]) -> std::ops::Range<usize> {
    0..usize::from(record[COLUMNS_AT]).min(64)
}

pub fn always(_: &[u8]) -> bool {
    true
}

/// Whether a column has 64 intervals.
pub fn has_64_intervals(record: &[u8]) -> bool {
    is_sized(record) && record[COUNTS_AT..INTERVALS_AT].contains(&64)
}

pub fn without_last_byte(record: &[u8]) -> Vec<u8> {
    changed(record, |record| record[RECORD_SIZE - 1] = 0)
}

pub fn without_last_count(record: &[u8]) -> Vec<u8> {
    changed(record, |record| {
        if columns(record).end < 64 {
            record[INTERVALS_AT - 1] = 0;
        }
    })
}

pub fn without_what_is_too_long(record: &[u8]) -> Vec<u8> {
    record[..record.len().min(RECORD_SIZE)].to_vec()
}

pub fn with_counts_of_7_bits(record: &[u8]) -> Vec<u8> {
    changed(record, |record| {
        for column in columns(record) {
            record[COUNTS_AT + column] &= 127;
        }
    })
}

/// Zeros for the record of the least device.
pub fn with_a_device_for_zeros(record: &[u8]) -> Vec<u8> {
    changed(record, |record| {
        if record.iter().all(|&byte| byte == 0) {
            record[ROWS_AT] = 1;
            record[COLUMNS_AT] = 1;
            put_intervals(record, 0, &[(0, 2)]);
        }
    })
}

/// The blocks of an entry.
fn blocks(record: &[u8], index: usize) -> &[u8] {
    let entry = &record[entry_part(index)];
    let count = usize::from(entry[ENTRY_COUNT_AT]).min(32);
    &entry[BLOCKS_AT..BLOCKS_AT + BLOCK_SIZE * count]
}

pub fn without_well_formed_entries_behind(record: &[u8]) -> Vec<u8> {
    changed(record, |record| {
        for index in entries(record).end..64 {
            if Task::from_bytes(blocks(record, index)).is_ok() {
                record[entry_part(index)].fill(0);
            }
        }
    })
}

/// Without a task that stands just where the one before it does.
pub fn without_twins(record: &[u8]) -> Vec<u8> {
    changed(record, |record| {
        let past_number = |index| &record[entry_part(index)][2..];
        let is_twin = |index: &usize| past_number(*index) == past_number(index - 1);
        let Some(twin) = entries(record).skip(1).find(is_twin) else {
            return;
        };
        record.copy_within(entry_part(twin).end.., entry_part(twin).start);
        record[entry_part(63)].fill(0);
        record[RUNNING_AT] -= 1;
    })
}

/// With intervals that touch made one.
pub fn with_touching_intervals_joined(record: &[u8]) -> Vec<u8> {
    changed(record, |record| {
        for column in columns(record) {
            let count = usize::from(record[COUNTS_AT + column]).min(64);
            let mut joined: Vec<(u16, u16)> = Vec::new();
            for interval in record[column_part(column)]
                .chunks(INTERVAL_SIZE)
                .take(count)
            {
                let (bottom, top) = (word(interval, 0), word(interval, INTERVAL_TOP_AT));
                match joined.last_mut() {
                    Some(last) if last.1 == bottom && bottom < top => last.1 = top,
                    _ => joined.push((bottom, top)),
                }
            }
            if joined.len() < count {
                put_intervals(record, column, &joined);
            }
        }
    })
}

/// With blocks that touch made one.
pub fn with_touching_blocks_joined(record: &[u8]) -> Vec<u8> {
    changed(record, |record| {
        for index in entries(record) {
            let Some(joined) = joined_blocks(blocks(record, index)) else {
                continue;
            };
            let entry = &mut record[entry_part(index)];
            entry[ENTRY_COUNT_AT] = (joined.len() / BLOCK_SIZE) as u8;
            entry[BLOCKS_AT..].fill(0);
            entry[BLOCKS_AT..BLOCKS_AT + joined.len()].copy_from_slice(&joined);
        }
    })
}

/// The bytes of blocks, those that touch made one; none where no blocks do.
fn joined_blocks(bytes: &[u8]) -> Option<Vec<u8>> {
    let mut joined: Vec<Block> = Vec::new();
    for block in read_blocks(bytes)? {
        match joined.last_mut() {
            Some(last) if last.column == block.column && last.top == block.bottom => {
                last.top = block.top;
            }
            _ => joined.push(block),
        }
    }
    (joined.len() < bytes.len() / BLOCK_SIZE).then(|| bytes_of(&joined))
}
