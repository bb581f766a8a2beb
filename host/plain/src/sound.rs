//! Whether a record is sound, in one pass over it: the cells that its running tasks hold are marked as bits, and
//! the columns' intervals are compared with what these leave.

use std::array;

use crate::cells::{zeros, Held};
use crate::layout::*;
use crate::record::{columns, count, device_ok, kind, part, running};
use crate::task::{Block, Order};

/// The cells of every column.
type Grid = [Held; MAX_COLUMNS];

/// Whether a record is sound.
pub fn is_sound(record: &Record) -> bool {
    if !has_device(record) {
        return false;
    }
    let mut grid = free_grid(record);
    mark_entries(record, &mut grid) && lists_columns(record, &grid)
}

/// Whether a record begins with a device, and what stands behind its kinds and its counts is 0.
fn has_device(record: &Record) -> bool {
    let columns = columns(record);
    if columns > MAX_COLUMNS {
        return false;
    }
    let (kinds, no_kinds) = record[KINDS_AT..COUNTS_AT].split_at(columns);
    let no_counts = &record[COUNTS_AT + columns..INTERVALS_AT];
    device_ok(word(record, ROWS_AT), kinds) && zeros(no_kinds) && zeros(no_counts)
}

/// The columns of a record's device with all cells free; those behind the last one are never marked.
fn free_grid(record: &Record) -> Grid {
    let rows = word(record, ROWS_AT);
    let by_kind = array::from_fn::<_, KINDS, _>(|kind| Held::none_of(cells(kind as u8, rows)));
    array::from_fn(|column| by_kind[usize::from(kind(record, column))])
}

/// Marks the cells of all running entries; answers whether they may be there, and all other entries are 0.
fn mark_entries(record: &Record, grid: &mut Grid) -> bool {
    let running = running(record);
    if running > MAX_RUNNING {
        return false;
    }
    let (entries, unused) = record[ENTRIES_AT..].split_at(ENTRY_SIZE * running);
    let mut previous = 0;
    for entry in entries.chunks_exact(ENTRY_SIZE) {
        let number = word(entry, ENTRY_NUMBER_AT);
        if number <= previous || !mark_entry(record, grid, entry) {
            return false;
        }
        previous = number;
    }
    zeros(unused)
}

/// Marks the cells of a running entry; answers whether its task is well-formed and fits, and its unused bytes are 0.
fn mark_entry(record: &Record, grid: &mut Grid, entry: &[u8]) -> bool {
    let count = usize::from(entry[ENTRY_COUNT_AT]);
    if !(1..=MAX_BLOCKS).contains(&count) {
        return false;
    }
    let (blocks, unused) = entry[BLOCKS_AT..].split_at(BLOCK_SIZE * count);
    let first_column = usize::from(entry[ENTRY_COLUMN_AT]);
    let bottom = word(entry, ENTRY_BOTTOM_AT) as i32;
    let mut order = Order::START;
    for bytes in blocks.chunks_exact(BLOCK_SIZE) {
        let block = Block::from_bytes(bytes);
        let column = first_column + block.column();
        let may_stand = order.goes_on(&block)
            && column < columns(record)
            && kind(record, column) == block.kind()
            && mark_block(&mut grid[column], &block, bottom);
        if !may_stand {
            return false;
        }
    }
    zeros(unused)
}

/// Marks the cells of a block that is moved up; answers whether they are free cells of its column.
#[inline]
fn mark_block(held: &mut Held, block: &Block, moved: i32) -> bool {
    let (bottom, top) = (moved + block.bottom(), moved + block.top());
    if bottom < 0 {
        return false;
    }
    let (bottom, top) = (bottom as u32, top as u32);
    let (from, to) = (cell(block.kind(), bottom), cell(block.kind(), top));
    is_whole(block.kind(), bottom) && held.mark(from, to)
}

/// Whether each column's part and count are those of its free intervals, and all other parts are 0.
fn lists_columns(record: &Record, grid: &Grid) -> bool {
    let columns = columns(record);
    let lists = |(column, held): (usize, &Held)| {
        let height = height(kind(record, column));
        held.lists(part(record, column), count(record, column), height)
    };
    let unused = &record[column_part(columns).start..ENTRIES_AT];
    grid[..columns].iter().enumerate().all(lists) && zeros(unused)
}
