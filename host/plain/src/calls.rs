//! The calls: the refusals in the table's order, then the work.

use crate::choice;
use crate::fragments;
use crate::layout::*;
use crate::listing::Search;
use crate::record::{self, Entry};
use crate::sound::is_sound;
use crate::task::{is_sized, Task};

/// The refusals (MODEL 13.1).
pub mod refusal {
    /// The record has another length.
    pub const RECORD_LENGTH: i32 = -1;
    /// The record has the right length and is not sound.
    pub const RECORD_NOT_SOUND: i32 = -2;
    /// This is no device, or it has no column of that number.
    pub const DEVICE_OR_COLUMN: i32 = -3;
    /// The bytes are not those of 1 to 32 blocks.
    pub const TASK_LENGTH: i32 = -4;
    /// The blocks are no well-formed task.
    pub const TASK_NOT_WELL_FORMED: i32 = -5;
    /// The output is too short.
    pub const OUTPUT_SHORT: i32 = -6;
    /// The number can't be a task's, or is another task's.
    pub const BAD_NUMBER: i32 = -7;
    /// No further task may run.
    pub const FULL: i32 = -8;
    /// The task fits nowhere.
    pub const NO_POSITION: i32 = -9;
    /// The task does not fit at this position.
    pub const MISFIT: i32 = -10;
    /// No task has the number.
    pub const NOT_RUNNING: i32 = -11;
}

/// What a call gives, or its refusal's number.
type Answer = Result<i32, i32>;

/// The answer of a call as one number.
fn answer(result: Answer) -> i32 {
    result.unwrap_or_else(|refusal| refusal)
}

/// The bytes as a sound record, or −1 or −2. It is the first test of every call but new.
pub fn checked(bytes: &[u8]) -> Result<&Record, i32> {
    let record: &Record = bytes.try_into().map_err(|_| refusal::RECORD_LENGTH)?;
    if is_sound(record) {
        Ok(record)
    } else {
        Err(refusal::RECORD_NOT_SOUND)
    }
}

/// The same of bytes that may be written.
fn checked_mut(bytes: &mut [u8]) -> Result<&mut Record, i32> {
    checked(bytes)?;
    bytes.try_into().map_err(|_| refusal::RECORD_LENGTH)
}

/// A task from its bytes, or −4 or −5.
pub fn task(bytes: &[u8]) -> Result<Task, i32> {
    if !is_sized(bytes) {
        return Err(refusal::TASK_LENGTH);
    }
    Task::from_bytes(bytes).ok_or(refusal::TASK_NOT_WELL_FORMED)
}

/// New: makes the record of a device on which nothing runs. Answers 0, −1 or −3.
pub fn new(record: &mut [u8], rows: u32, kinds: &[u8]) -> i32 {
    let Ok(record) = <&mut Record>::try_from(record) else {
        return refusal::RECORD_LENGTH;
    };
    if !record::device_ok(rows, kinds) {
        return refusal::DEVICE_OR_COLUMN;
    }
    record.fill(0);
    record::write_device(record, rows, kinds);
    0
}

/// Place: puts a task into the record. Answers 0, −1, −2, −4, −5, −7, −8 or −10.
pub fn place(record: &mut [u8], task: &[u8], number: u32, column: u32, bottom: i32) -> i32 {
    answer(try_place(record, task, number, column, bottom))
}

fn try_place(record: &mut [u8], bytes: &[u8], number: u32, column: u32, bottom: i32) -> Answer {
    let record = checked_mut(record)?;
    let task = task(bytes)?;
    if !(1..=MAX_NUMBER).contains(&number) {
        return Err(refusal::BAD_NUMBER);
    }
    let Err(index) = record::find(record, number) else {
        return Err(refusal::BAD_NUMBER);
    };
    if record::running(record) == MAX_RUNNING {
        return Err(refusal::FULL);
    }
    if !record::fits(record, &task, column, bottom) {
        return Err(refusal::MISFIT);
    }
    let entry = Entry {
        number,
        column: column as usize,
        bottom: bottom as u32,
    };
    record::enter(record, index, entry, &task, bytes);
    Ok(0)
}

/// Release: takes a task out of the record. Answers 0, −1, −2 or −11.
pub fn release(record: &mut [u8], number: u32) -> i32 {
    answer(try_release(record, number))
}

fn try_release(record: &mut [u8], number: u32) -> Answer {
    let record = checked_mut(record)?;
    let index = record::find(record, number).map_err(|_| refusal::NOT_RUNNING)?;
    record::leave(record, index);
    Ok(0)
}

/// List: writes the ranges. Answers how many, or −1, −2, −4, −5, −6 or −9.
pub fn list(record: &[u8], task: &[u8], output: &mut [u8]) -> i32 {
    let listed = checked(record).and_then(|record| search_list(record, task, output));
    answer(listed)
}

/// Choose: answers column × 1,024 + bottom, or −1, −2, −4, −5 or −9.
pub fn choose(record: &[u8], task: &[u8]) -> i32 {
    let chosen = checked(record).and_then(|record| search_choose(record, task));
    answer(chosen)
}

/// List on a record that is known to be sound: the search alone, for measurements.
pub fn search_list(record: &Record, bytes: &[u8], output: &mut [u8]) -> Answer {
    let task = task(bytes)?;
    if output.len() < LIST_ROOM {
        return Err(refusal::OUTPUT_SHORT);
    }
    let mut search = Search::START;
    let mut room = output.chunks_exact_mut(RANGE_SIZE);
    let mut count = 0;
    for column in 0..record::columns(record) {
        let ranges = search.column_ranges(record, &task, column);
        for (range, part) in ranges.all().iter().zip(&mut room) {
            part[0] = column as u8;
            part[RANGE_STEP_AT] = ranges.step as u8;
            put_word(part, RANGE_FIRST_AT, range.first as u32);
            put_word(part, RANGE_LAST_AT, range.last as u32);
        }
        count += ranges.all().len();
    }
    match count {
        0 => Err(refusal::NO_POSITION),
        _ => Ok(count as i32),
    }
}

/// Choose on a record that is known to be sound: the search alone, for measurements.
pub fn search_choose(record: &Record, bytes: &[u8]) -> Answer {
    let task = task(bytes)?;
    let (column, bottom) = choice::chosen(record, &task).ok_or(refusal::NO_POSITION)?;
    Ok(COLUMN_WEIGHT * column as i32 + bottom)
}

/// Interval count: answers how many intervals a column has, or −1, −2 or −3.
pub fn interval_count(record: &[u8], column: u32) -> i32 {
    let counted = counted(record, column).map(|part| part.len() / INTERVAL_SIZE);
    answer(counted.map(|count| count as i32))
}

/// Fragmentation: answers how many connected sets the free cells make, and writes how many cells are free and
/// the degree in hundredths of a percent; or −1 or −2, with two zeros.
pub fn fragmentation(record: &[u8], free: &mut i32, degree: &mut i32) -> i32 {
    (*free, *degree) = (0, 0);
    let counted = checked(record).map(|record| {
        let sets = fragments::sets(record);
        let cells = fragments::free_cells(record);
        *free = cells as i32;
        *degree = fragments::degree(sets, cells) as i32;
        sets as i32
    });
    answer(counted)
}

/// The view: the bytes of a column's intervals, in their place in the record; none where interval count refuses.
pub fn view(record: &[u8], column: u32) -> &[u8] {
    counted(record, column).unwrap_or(&[])
}

/// A column's intervals in use, or the refusal of both interval calls.
fn counted(bytes: &[u8], column: u32) -> Result<&[u8], i32> {
    let record = checked(bytes)?;
    if column as usize >= record::columns(record) {
        return Err(refusal::DEVICE_OR_COLUMN);
    }
    let column = column as usize;
    Ok(&record::part(record, column)[..INTERVAL_SIZE * record::count(record, column)])
}
