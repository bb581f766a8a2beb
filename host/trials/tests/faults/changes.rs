//! Faults of new, place and release. The list says what each of them is.

use calls::Calls;
use oracle::layout::*;
use oracle::Refusal;

use crate::faulty::{Past, Placing};
use crate::searches::{on_the_grid, without_blocks_of_no_cell};

/// How many tasks a record says are running.
fn running(record: &[u8]) -> usize {
    usize::from(record[RUNNING_AT])
}

pub fn new_leaves_bytes(right: &dyn Calls, record: &mut [u8], rows: u32, kinds: &[u8]) -> i32 {
    let before = record.to_vec();
    let answer = right.new(record, rows, kinds);
    if answer == 0 {
        record[ENTRIES_AT..].copy_from_slice(&before[ENTRIES_AT..]);
    }
    answer
}

pub fn rows_cut(right: &dyn Calls, record: &mut [u8], rows: u32, kinds: &[u8]) -> i32 {
    right.new(record, rows % 65_536, kinds)
}

pub fn refused_new_clears(right: &dyn Calls, record: &mut [u8], rows: u32, kinds: &[u8]) -> i32 {
    let answer = right.new(record, rows, kinds);
    if answer == Refusal::DeviceOrColumn.number() {
        record.fill(0);
    }
    answer
}

pub fn first_place_only(right: &dyn Calls, _: &Past, record: &mut [u8], asked: Placing) -> i32 {
    let before = record.to_vec();
    let answer = asked.on(right, record);
    if answer == 0 && running(&before) > 0 {
        record.copy_from_slice(&before);
    }
    answer
}

pub fn number_before_task(right: &dyn Calls, _: &Past, record: &mut [u8], asked: Placing) -> i32 {
    match asked.on(right, record) {
        -5 | -4 if asked.number == 0 => Refusal::BadNumber.number(),
        answer => answer,
    }
}

pub fn place_number_cut(right: &dyn Calls, _: &Past, record: &mut [u8], asked: Placing) -> i32 {
    let number = asked.number % 65_536;
    Placing { number, ..asked }.on(right, record)
}

pub fn release_number_cut(right: &dyn Calls, _: &Past, record: &mut [u8], number: u32) -> i32 {
    right.release(record, number % 65_536)
}

pub fn column_cut(right: &dyn Calls, _: &Past, record: &mut [u8], asked: Placing) -> i32 {
    let column = asked.column % 256;
    Placing { column, ..asked }.on(right, record)
}

pub fn bottom_cut(right: &dyn Calls, _: &Past, record: &mut [u8], asked: Placing) -> i32 {
    let bottom = i32::from(asked.bottom as i16);
    Placing { bottom, ..asked }.on(right, record)
}

pub fn up_to_63_tasks(right: &dyn Calls, _: &Past, record: &mut [u8], asked: Placing) -> i32 {
    let before = record.to_vec();
    let answer = asked.on(right, record);
    if answer == 0 && running(&before) == 63 {
        record.copy_from_slice(&before);
        return Refusal::Full.number();
    }
    answer
}

/// A task that does not fit is placed with its second block moved down to the grid of the first.
pub fn place_on_the_grid(right: &dyn Calls, _: &Past, record: &mut [u8], asked: Placing) -> i32 {
    match (asked.on(right, record), on_the_grid(asked.task)) {
        (-10, Some(task)) => {
            let task = &task;
            Placing { task, ..asked }.on(right, record)
        }
        (answer, _) => answer,
    }
}

/// A block in a column without a cell is passed over.
pub fn place_past_no_cells(right: &dyn Calls, _: &Past, record: &mut [u8], asked: Placing) -> i32 {
    match asked.on(right, record) {
        -10 => {
            let task = &without_blocks_of_no_cell(record, asked.task);
            Placing { task, ..asked }.on(right, record)
        }
        answer => answer,
    }
}

/// At most 32 entries are moved to make room for a new one.
pub fn place_moves_32(right: &dyn Calls, _: &Past, record: &mut [u8], asked: Placing) -> i32 {
    let before = record.to_vec();
    let answer = asked.on(right, record);
    if answer == 0 {
        let is_new = |index: &usize| record[entry_part(*index)] != before[entry_part(*index)];
        let first = (0..64).find(is_new).unwrap_or(64);
        for index in first + 33..64 {
            record[entry_part(index)].copy_from_slice(&before[entry_part(index)]);
        }
    }
    answer
}

/// A number whose placing was refused for its position is taken to be running, at the next call.
pub fn refused_number_runs(
    right: &dyn Calls,
    past: &Past,
    record: &mut [u8],
    asked: Placing,
) -> i32 {
    let before = record.to_vec();
    let answer = asked.on(right, record);
    if answer == 0 && past.misfit == Some(asked.number) && running(&before) > 0 {
        record.copy_from_slice(&before);
        return Refusal::BadNumber.number();
    }
    answer
}

pub fn release_does_nothing(right: &dyn Calls, _: &Past, record: &mut [u8], number: u32) -> i32 {
    right.release(&mut record.to_vec(), number)
}

pub fn release_leaves_bytes(right: &dyn Calls, _: &Past, record: &mut [u8], number: u32) -> i32 {
    let before = record.to_vec();
    let answer = right.release(record, number);
    if answer == 0 {
        let last = entry_part(running(record));
        record[last.clone()].copy_from_slice(&before[last]);
    }
    answer
}

/// A task is not found among two or more after 250 changes.
pub fn release_after_many(right: &dyn Calls, past: &Past, record: &mut [u8], number: u32) -> i32 {
    let before = record.to_vec();
    let answer = right.release(record, number);
    if answer == 0 && past.changes > 250 && running(&before) > 1 {
        record.copy_from_slice(&before);
        return Refusal::NotRunning.number();
    }
    answer
}

/// Of more than 48 running tasks, one is released in its logic columns only.
pub fn release_logic_only(right: &dyn Calls, _: &Past, record: &mut [u8], number: u32) -> i32 {
    let before = record.to_vec();
    let answer = right.release(record, number);
    if answer != 0 || running(&before) <= 48 {
        return answer;
    }
    for column in (0..64).filter(|column| before[KINDS_AT + column] != 0) {
        record[COUNTS_AT + column] = before[COUNTS_AT + column];
        record[column_part(column)].copy_from_slice(&before[column_part(column)]);
    }
    answer
}

/// The intervals of a column, as bottom and top.
fn intervals(record: &[u8], column: usize) -> Vec<(u16, u16)> {
    let count = usize::from(record[COUNTS_AT + column]);
    let part = record[column_part(column)].chunks(INTERVAL_SIZE);
    part.take(count)
        .map(|i| (word(i, 0), word(i, INTERVAL_TOP_AT)))
        .collect()
}

/// Writes the intervals of a column.
pub fn put_intervals(record: &mut [u8], column: usize, intervals: &[(u16, u16)]) {
    record[COUNTS_AT + column] = intervals.len() as u8;
    let part = &mut record[column_part(column)];
    part.fill(0);
    for (place, (bottom, top)) in part.chunks_mut(INTERVAL_SIZE).zip(intervals) {
        put_word(place, 0, *bottom);
        put_word(place, INTERVAL_TOP_AT, *top);
    }
}

/// Releases, and then changes the intervals of each column, given what they were before.
fn release_with(
    right: &dyn Calls,
    record: &mut [u8],
    number: u32,
    change: impl Fn(&[(u16, u16)], Vec<(u16, u16)>) -> Vec<(u16, u16)>,
) -> i32 {
    let before = record.to_vec();
    let answer = right.release(record, number);
    if answer == 0 {
        for column in 0..usize::from(record[COLUMNS_AT]) {
            let old = intervals(&before, column);
            let new = change(&old, intervals(record, column));
            put_intervals(record, column, &new);
        }
    }
    answer
}

pub fn joins_below_only(right: &dyn Calls, _: &Past, record: &mut [u8], number: u32) -> i32 {
    release_with(right, record, number, |old, new| {
        let split = |(bottom, top): (u16, u16)| {
            // What was free right above stays an interval of its own.
            let mut above = old.iter().filter(|above| above.1 == top);
            match above.next() {
                Some(&(middle, _)) if middle > bottom => vec![(bottom, middle), (middle, top)],
                _ => vec![(bottom, top)],
            }
        };
        new.into_iter().flat_map(split).collect()
    })
}

pub fn joins_no_two(right: &dyn Calls, _: &Past, record: &mut [u8], number: u32) -> i32 {
    release_with(right, record, number, |old, new| {
        let split = |(bottom, top): (u16, u16)| {
            let below = old.iter().find(|below| below.0 == bottom && below.1 < top);
            let above = old.iter().find(|above| above.1 == top && above.0 > bottom);
            match (below, above) {
                (Some(&below), Some(&above)) => vec![below, (below.1, above.0), above],
                _ => vec![(bottom, top)],
            }
        };
        new.into_iter().flat_map(split).collect()
    })
}

/// A memory or multiplier cell from half row 60 up that is released between two held ones is lost.
pub fn high_cell_lost(right: &dyn Calls, _: &Past, record: &mut [u8], number: u32) -> i32 {
    release_with(right, record, number, |old, new| {
        let is_lost = |interval: &(u16, u16)| {
            let is_cell = interval.0 >= 60 && interval.1 - interval.0 == 5;
            is_cell && !old.contains(interval)
        };
        new.into_iter().filter(|i| !is_lost(i)).collect()
    })
}
