//! Faults of list, choose and interval count. The list says what each of them is.

use calls::Calls;
use oracle::fit::Position;
use oracle::layout::*;
use oracle::listing::{read_ranges, LIST_ROOM, RANGE_SIZE};
use oracle::task::{bytes_of, read_blocks, Block, Task, BLOCK_SIZE};
use oracle::Refusal;

/// The answer where there is no position.
const NONE: i32 = Refusal::NoPosition as i32;

/// Lists, but where something holds of the ranges their bytes are put back and the answer is −9.
fn list_unless(
    right: &dyn Calls,
    record: &[u8],
    task: &[u8],
    output: &mut [u8],
    gives_up: impl Fn(&[u8]) -> bool,
) -> i32 {
    let before = output.to_vec();
    let answer = right.list(record, task, output);
    if answer >= 0 && gives_up(&output[..RANGE_SIZE * answer as usize]) {
        output.copy_from_slice(&before);
        return NONE;
    }
    answer
}

/// Chooses, but where something holds the answer is −9.
fn choose_unless(
    right: &dyn Calls,
    record: &[u8],
    task: &[u8],
    gives_up: impl Fn() -> bool,
) -> i32 {
    match right.choose(record, task) {
        0.. if gives_up() => NONE,
        answer => answer,
    }
}

pub fn list_without_search(r: &dyn Calls, record: &[u8], task: &[u8], output: &mut [u8]) -> i32 {
    list_unless(r, record, task, output, |_| true)
}

pub fn choose_without_search(right: &dyn Calls, record: &[u8], task: &[u8]) -> i32 {
    choose_unless(right, record, task, || true)
}

pub fn list_up_to_300(right: &dyn Calls, record: &[u8], task: &[u8], output: &mut [u8]) -> i32 {
    list_unless(right, record, task, output, |ranges| {
        ranges.len() > 300 * RANGE_SIZE
    })
}

/// Whether all that is free on a card of more than 40 half rows is one cell.
fn almost_full(record: &[u8]) -> bool {
    let columns = usize::from(record[COLUMNS_AT]);
    let heights = (0..columns).flat_map(|column| {
        let part = record[column_part(column)].chunks(INTERVAL_SIZE);
        part.map(|i| word(i, INTERVAL_TOP_AT) - word(i, 0))
    });
    heights.sum::<u16>() <= 5 && 2 * usize::from(word(record, ROWS_AT)) * columns > 40
}

pub fn list_unless_almost_full(r: &dyn Calls, record: &[u8], task: &[u8], out: &mut [u8]) -> i32 {
    list_unless(r, record, task, out, |_| almost_full(record))
}

pub fn choose_unless_almost_full(right: &dyn Calls, record: &[u8], task: &[u8]) -> i32 {
    choose_unless(right, record, task, || almost_full(record))
}

/// Whether a task has two blocks of different heights, the second 9 half rows below the first.
fn has_lost_offset(task: &[u8]) -> bool {
    Task::from_bytes(task).is_ok_and(|task| {
        let is_low = |block: &Block| block.bottom == -9;
        task.blocks().len() == 2 && task.step() == 10 && is_low(&task.blocks()[1])
    })
}

pub fn list_but_one_offset(r: &dyn Calls, record: &[u8], task: &[u8], output: &mut [u8]) -> i32 {
    list_unless(r, record, task, output, |_| has_lost_offset(task))
}

pub fn choose_but_one_offset(right: &dyn Calls, record: &[u8], task: &[u8]) -> i32 {
    choose_unless(right, record, task, || has_lost_offset(task))
}

/// Whether a task has three blocks, not all of one height.
fn is_three_of_two_steps(task: &[u8]) -> bool {
    Task::from_bytes(task).is_ok_and(|task| task.blocks().len() == 3 && task.step() == 10)
}

pub fn list_but_three_blocks(r: &dyn Calls, record: &[u8], task: &[u8], output: &mut [u8]) -> i32 {
    list_unless(r, record, task, output, |_| is_three_of_two_steps(task))
}

pub fn choose_but_three_blocks(right: &dyn Calls, record: &[u8], task: &[u8]) -> i32 {
    choose_unless(right, record, task, || is_three_of_two_steps(task))
}

/// Whether a listing names one position, with no room for a further cell above the first block.
fn is_topmost(record: &[u8], task: &[u8], ranges: &[u8]) -> bool {
    let is_one = ranges.len() == RANGE_SIZE && ranges[2..4] == ranges[4..6];
    let first = read_blocks(task).and_then(|blocks| blocks.first().copied());
    first.is_some_and(|first| {
        let end = i64::from(word(ranges, 2)) + i64::from(first.top) + first.kind.height();
        is_one && end > 2 * i64::from(word(record, ROWS_AT))
    })
}

pub fn list_but_topmost(r: &dyn Calls, record: &[u8], task: &[u8], output: &mut [u8]) -> i32 {
    list_unless(r, record, task, output, |ranges| {
        is_topmost(record, task, ranges)
    })
}

pub fn fixed_listing(right: &dyn Calls, record: &[u8], task: &[u8], output: &mut [u8]) -> i32 {
    let answer = right.list(record, task, output);
    if answer <= 0 {
        return answer;
    }
    output[..RANGE_SIZE].copy_from_slice(&[0, 2, 0, 0, 0, 0]);
    1
}

pub fn one_range_too_many(right: &dyn Calls, record: &[u8], task: &[u8], output: &mut [u8]) -> i32 {
    match right.list(record, task, output) {
        answer @ 1.. => answer + 1,
        answer => answer,
    }
}

pub fn output_cleared(right: &dyn Calls, record: &[u8], task: &[u8], output: &mut [u8]) -> i32 {
    let answer = right.list(record, task, output);
    if answer > 0 {
        output[RANGE_SIZE * answer as usize..].fill(0);
    }
    answer
}

pub fn refusal_writes(right: &dyn Calls, record: &[u8], task: &[u8], output: &mut [u8]) -> i32 {
    let answer = right.list(record, task, output);
    if answer == NONE {
        output[0] ^= 1;
    }
    answer
}

pub fn output_before_task(right: &dyn Calls, record: &[u8], task: &[u8], output: &mut [u8]) -> i32 {
    match right.list(record, task, output) {
        -5 if output.len() < LIST_ROOM => Refusal::OutputShort.number(),
        answer => answer,
    }
}

pub fn whole_rows_only(right: &dyn Calls, record: &[u8], task: &[u8], output: &mut [u8]) -> i32 {
    list_unless(right, record, task, output, |ranges| {
        ranges[1] == 10 && ranges[2] % 2 == 1
    })
}

pub fn split_range(right: &dyn Calls, record: &[u8], task: &[u8], output: &mut [u8]) -> i32 {
    let answer = right.list(record, task, output);
    if answer <= 0 || output[2..4] == output[4..6] {
        return answer;
    }
    let first = word(output, 2);
    let second = first + u16::from(output[1]);
    output.copy_within(0..RANGE_SIZE * answer as usize, RANGE_SIZE);
    put_word(output, 4, first);
    put_word(output, RANGE_SIZE + 2, second);
    answer + 1
}

/// The task with its second block on the grid of the first, where it stands in the same column and is
/// not on it.
pub fn on_the_grid(task: &[u8]) -> Option<Vec<u8>> {
    let task = Task::from_bytes(task).ok()?;
    let (first, second) = match task.blocks() {
        [first, second] if second.column == 0 => (first, second),
        _ => return None,
    };
    let off = second.bottom % second.kind.height() as i16;
    let moved = Block {
        bottom: second.bottom - off,
        top: second.top - off,
        ..*second
    };
    (off != 0 && moved.bottom > first.top).then(|| bytes_of(&[*first, moved]))
}

pub fn list_on_the_grid(right: &dyn Calls, record: &[u8], task: &[u8], output: &mut [u8]) -> i32 {
    right.list(record, on_the_grid(task).as_deref().unwrap_or(task), output)
}

pub fn choose_on_the_grid(right: &dyn Calls, record: &[u8], task: &[u8]) -> i32 {
    right.choose(record, on_the_grid(task).as_deref().unwrap_or(task))
}

/// The task without those blocks behind the first whose columns are too low for a cell.
pub fn without_blocks_of_no_cell(record: &[u8], task: &[u8]) -> Vec<u8> {
    let rows = u32::from(word(record, ROWS_AT));
    let mut blocks = read_blocks(task).unwrap_or_default();
    let others = blocks.split_off(blocks.len().min(1));
    blocks.extend(others.iter().filter(|block| block.kind.cells(rows) > 0));
    bytes_of(&blocks)
}

pub fn list_past_no_cells(right: &dyn Calls, record: &[u8], task: &[u8], output: &mut [u8]) -> i32 {
    match right.list(record, task, output) {
        NONE => right.list(record, &without_blocks_of_no_cell(record, task), output),
        answer => answer,
    }
}

pub fn list_without_column_63(r: &dyn Calls, record: &[u8], task: &[u8], output: &mut [u8]) -> i32 {
    let before = output.to_vec();
    let answer = r.list(record, task, output);
    let ranges = read_ranges(output, answer.max(0) as usize);
    let kept = ranges.iter().take_while(|range| range.column < 63).count();
    if kept == ranges.len() {
        return answer;
    }
    output[RANGE_SIZE * kept..].copy_from_slice(&before[RANGE_SIZE * kept..]);
    if kept == 0 {
        NONE
    } else {
        kept as i32
    }
}

pub fn choose_in_16_bits(right: &dyn Calls, record: &[u8], task: &[u8]) -> i32 {
    i32::from(right.choose(record, task) as i16)
}

pub fn choose_first(right: &dyn Calls, record: &[u8], task: &[u8]) -> i32 {
    let answer = right.choose(record, task);
    if answer < 0 {
        return answer;
    }
    let mut output = vec![0; LIST_ROOM];
    right.list(record, task, &mut output);
    let first = read_ranges(&output, 1)[0];
    let (column, bottom) = (first.column, first.first);
    Position { column, bottom }.answer()
}

pub fn one_column_too_many(right: &dyn Calls, record: &[u8], column: u32) -> i32 {
    match right.interval_count(record, column) {
        -3 if column == u32::from(record[COLUMNS_AT]) => 0,
        answer => answer,
    }
}

pub fn count_of_column_cut(right: &dyn Calls, record: &[u8], column: u32) -> i32 {
    right.interval_count(record, column % 256)
}

pub fn count_up_to_33(right: &dyn Calls, record: &[u8], column: u32) -> i32 {
    right.interval_count(record, column).min(33)
}

/// Whether a block of a well-formed task has something about it.
fn some_block(task: &[u8], holds: impl Fn(&Block) -> bool) -> bool {
    Task::from_bytes(task).is_ok_and(|task| task.blocks().iter().any(holds))
}

pub fn has_top_256(task: &[u8]) -> bool {
    some_block(task, |block| block.top == 256)
}

pub fn has_column_63(task: &[u8]) -> bool {
    some_block(task, |block| block.column == 63)
}

pub fn has_32_blocks(task: &[u8]) -> bool {
    task.len() == 32 * BLOCK_SIZE && some_block(task, |_| true)
}
