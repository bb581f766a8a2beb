//! Records with one flaw: every sentence about sound records holds but one, so that only the test of
//! that one can refuse them.

use calls::Calls;
use oracle::layout::*;
use oracle::rng::Rng;
use oracle::sound::{self, Unsound};
use oracle::task::{bytes_of, read_blocks, Block, BLOCK_SIZE, MAX_BLOCKS, REACH};
use oracle::Kind;

use crate::damage::{judge, one_of_each};
use crate::histories::any_device;
use crate::shapes::used_card;
use crate::{ensure, Mismatch, Trial};

/// A flaw: what it breaks, and how it is put into a sound record; none where there is no place for it.
struct Flaw {
    breaks: Unsound,
    put: fn(&mut [u8]) -> Option<()>,
}

/// The flaws.
const FLAWS: [Flaw; 8] = [
    Flaw {
        breaks: Unsound::SharedCell,
        put: task_twice,
    },
    Flaw {
        breaks: Unsound::NumbersRise,
        put: entries_exchanged,
    },
    Flaw {
        breaks: Unsound::Intervals,
        put: touching_intervals,
    },
    Flaw {
        breaks: Unsound::Intervals,
        put: empty_interval,
    },
    Flaw {
        breaks: Unsound::Intervals,
        put: intervals_exchanged,
    },
    Flaw {
        breaks: Unsound::NotWellFormed,
        put: touching_blocks,
    },
    Flaw {
        breaks: Unsound::NotWellFormed,
        put: first_bottom_not_0,
    },
    Flaw {
        breaks: Unsound::Misfit,
        put: over_the_top,
    },
];

/// Puts each flaw into the records of so many books; answers how often the rarest of them had a place.
pub fn one_flaw(subject: &dyn Calls, seed: u64, books: usize) -> Trial<usize> {
    let mut rng = Rng::new(seed);
    let mut had_place = [0; FLAWS.len()];
    for _ in 0..books {
        let device = any_device(&mut rng);
        let book = used_card(&mut rng, device, 30);
        let calls = one_of_each(&mut rng, &book);
        let sound = oracle::record::record_of(&book);
        for (flaw, count) in FLAWS.iter().zip(&mut had_place) {
            let mut record = sound.clone();
            if (flaw.put)(&mut record).is_none() {
                continue;
            }
            let found = sound::read(&record).err();
            ensure(found == Some(flaw.breaks), || {
                format!("the flaw was to be {:?}, not {found:?}", flaw.breaks)
            })?;
            judge(subject, &record, &calls)
                .map_err(|what| Mismatch(format!("{:?}: {what}", flaw.breaks)))?;
            *count += 1;
        }
    }
    Ok(had_place.into_iter().min().unwrap_or(0))
}

/// How many tasks run.
fn running(record: &[u8]) -> usize {
    usize::from(record[RUNNING_AT])
}

/// The last task once more, under the next number: each cell of it is held twice, and no other changes.
fn task_twice(record: &mut [u8]) -> Option<()> {
    let running = running(record);
    let last = running.checked_sub(1).filter(|_| running < 64)?;
    let number = word(&record[entry_part(last)], ENTRY_NUMBER_AT);
    record.copy_within(entry_part(last), entry_part(running).start);
    let next = &mut record[entry_part(running)];
    put_word(next, ENTRY_NUMBER_AT, number.checked_add(1)?);
    record[RUNNING_AT] += 1;
    Some(())
}

/// The first two tasks exchanged, with their numbers.
fn entries_exchanged(record: &mut [u8]) -> Option<()> {
    if running(record) < 2 {
        return None;
    }
    record[entry_part(0).start..entry_part(1).end].rotate_left(ENTRY_SIZE);
    Some(())
}

/// The column, and the place in it, of an interval that something holds of.
fn interval(record: &[u8], holds: impl Fn(u16, usize) -> bool) -> Option<(usize, usize)> {
    let columns = 0..usize::from(record[COLUMNS_AT]);
    columns.into_iter().find_map(|column| {
        let count = usize::from(record[COUNTS_AT + column]);
        let cell = Kind::from_byte(record[KINDS_AT + column])?.height() as u16;
        let part = &record[column_part(column)];
        let intervals = part.chunks(INTERVAL_SIZE).take(count);
        let cells = |i: &[u8]| (word(i, INTERVAL_TOP_AT) - word(i, 0)) / cell;
        let mut heights = intervals.map(cells);
        let index = heights.position(|cells| holds(cells, count))?;
        Some((column, index))
    })
}

/// Makes room for one more interval in a column, behind the one at a place; answers the two.
fn insert_behind(record: &mut [u8], column: usize, index: usize) -> &mut [u8] {
    record[COUNTS_AT + column] += 1;
    let part = &mut record[column_part(column)];
    let at = INTERVAL_SIZE * index;
    part.copy_within(at..COLUMN_SIZE - INTERVAL_SIZE, at + INTERVAL_SIZE);
    &mut part[at..at + 2 * INTERVAL_SIZE]
}

/// An interval in two pieces that touch.
fn touching_intervals(record: &mut [u8]) -> Option<()> {
    let (column, index) = interval(record, |cells, count| cells > 1 && count < MAX_INTERVALS)?;
    let cell = Kind::from_byte(record[KINDS_AT + column])?.height() as u16;
    let both = insert_behind(record, column, index);
    let middle = word(both, 0) + cell;
    put_word(both, INTERVAL_TOP_AT, middle);
    put_word(both, INTERVAL_SIZE, middle);
    Some(())
}

/// An interval of no cell, on top of another.
fn empty_interval(record: &mut [u8]) -> Option<()> {
    let (column, index) = interval(record, |_, count| count < MAX_INTERVALS)?;
    let both = insert_behind(record, column, index);
    let top = word(both, INTERVAL_TOP_AT);
    put_word(both, INTERVAL_SIZE, top);
    Some(())
}

/// The lowest two intervals of a column exchanged.
fn intervals_exchanged(record: &mut [u8]) -> Option<()> {
    let (column, _) = interval(record, |_, count| count > 1)?;
    record[column_part(column)][..2 * INTERVAL_SIZE].rotate_left(INTERVAL_SIZE);
    Some(())
}

/// The blocks of a running task of a sound record.
fn blocks(record: &[u8], index: usize) -> Vec<Block> {
    let entry = &record[entry_part(index)];
    let end = BLOCKS_AT + BLOCK_SIZE * usize::from(entry[ENTRY_COUNT_AT]);
    read_blocks(&entry[BLOCKS_AT..end]).unwrap_or_default()
}

/// The first block of a running task that something holds of, given the bottom of its task: the task's place among
/// the running ones, and the block's in the task.
fn running_block(record: &[u8], holds: impl Fn(i16, &Block) -> bool) -> Option<(usize, usize)> {
    (0..running(record)).find_map(|index| {
        let bottom = word(&record[entry_part(index)], ENTRY_BOTTOM_AT) as i16;
        let blocks = blocks(record, index);
        let at = blocks.iter().position(|block| holds(bottom, block))?;
        Some((index, at))
    })
}

/// Writes the blocks of a running task.
fn put_blocks(record: &mut [u8], index: usize, blocks: &[Block]) {
    let entry = &mut record[entry_part(index)];
    entry[ENTRY_COUNT_AT] = blocks.len() as u8;
    let bytes = bytes_of(blocks);
    entry[BLOCKS_AT..BLOCKS_AT + bytes.len()].copy_from_slice(&bytes);
}

/// A block in two that touch: the cells are the same.
fn touching_blocks(record: &mut [u8]) -> Option<()> {
    let tall = |_, block: &Block| block.top - block.bottom > block.kind.height() as i16;
    let (index, at) = running_block(record, tall)?;
    let mut blocks = blocks(record, index);
    let block = blocks[at];
    let middle = block.bottom + block.kind.height() as i16;
    blocks[at].top = middle;
    let bottom = middle;
    blocks.insert(at + 1, Block { bottom, ..block });
    (blocks.len() <= MAX_BLOCKS).then(|| put_blocks(record, index, &blocks))
}

/// A task whose blocks all stand one half row higher over a bottom one lower: the cells are the same.
fn first_bottom_not_0(record: &mut [u8]) -> Option<()> {
    let may_rise = |index: &usize| {
        let low = word(&record[entry_part(*index)], ENTRY_BOTTOM_AT) == 0;
        let top = |block: &Block| i64::from(block.top) < REACH;
        !low && blocks(record, *index).iter().all(top)
    };
    let index = (0..running(record)).find(may_rise)?;
    let mut blocks = blocks(record, index);
    for block in &mut blocks {
        block.bottom += 1;
        block.top += 1;
    }
    put_blocks(record, index, &blocks);
    let entry = &mut record[entry_part(index)];
    let bottom = word(entry, ENTRY_BOTTOM_AT);
    put_word(entry, ENTRY_BOTTOM_AT, bottom - 1);
    Some(())
}

/// A block that ends with its column, and then one cell above: there is no such cell to be held.
fn over_the_top(record: &mut [u8]) -> Option<()> {
    let rows = u32::from(word(record, ROWS_AT));
    let highest = |bottom, block: &Block| {
        let height = block.kind.height() as i16;
        let end = height * block.kind.cells(rows) as i16;
        bottom + block.top == end && i64::from(block.top + height) <= REACH
    };
    let (index, at) = running_block(record, highest)?;
    let mut blocks = blocks(record, index);
    blocks[at].top += blocks[at].kind.height() as i16;
    put_blocks(record, index, &blocks);
    Some(())
}
