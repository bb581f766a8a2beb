//! The record of a book: its device, its tasks and the intervals between them,
//! each in its place, and zeros.

use crate::book::{Book, Running};
use crate::cells::intervals;
use crate::layout::*;

/// The bytes of the book's record.
pub fn record_of(book: &Book) -> Vec<u8> {
    let mut record = vec![0; RECORD_SIZE];
    write_device(book, &mut record);
    write_intervals(book, &mut record);
    for (index, (&number, entry)) in book.running().iter().enumerate() {
        write_entry(number, entry, &mut record[entry_part(index)]);
    }
    record
}

/// Rows, columns, running tasks and kinds.
fn write_device(book: &Book, record: &mut [u8]) {
    let device = book.device();
    put_word(record, ROWS_AT, device.rows() as u16);
    record[COLUMNS_AT] = device.columns() as u8;
    record[RUNNING_AT] = book.running().len() as u8;
    record[KINDS_AT..KINDS_AT + device.columns()].copy_from_slice(&device.kind_bytes());
}

/// Each column's interval count and its intervals, upwards.
fn write_intervals(book: &Book, record: &mut [u8]) {
    let device = book.device();
    let free = book.free_cells();
    for column in 0..device.columns() {
        let runs = intervals(device, &free, column);
        record[COUNTS_AT + column] = runs.len() as u8;
        let part = &mut record[column_part(column)];
        for (place, run) in part.chunks_exact_mut(INTERVAL_SIZE).zip(runs) {
            place.copy_from_slice(&run.to_bytes());
        }
    }
}

/// One running entry.
fn write_entry(number: u16, running: &Running, entry: &mut [u8]) {
    let task = &running.task;
    put_word(entry, ENTRY_NUMBER_AT, number);
    entry[ENTRY_COLUMN_AT] = running.position.column as u8;
    entry[ENTRY_COUNT_AT] = task.blocks().len() as u8;
    put_word(entry, ENTRY_BOTTOM_AT, running.position.bottom as u16);
    entry[BLOCKS_AT..BLOCKS_AT + task.bytes().len()].copy_from_slice(task.bytes());
}
