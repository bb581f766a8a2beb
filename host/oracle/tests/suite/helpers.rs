//! Short ways to write cards, tasks and listings by hand.

use oracle::calls;
use oracle::choice::score;
use oracle::device::Kind;
use oracle::layout::RECORD_SIZE;
use oracle::listing::{read_ranges, LIST_ROOM};
use oracle::task::{bytes_of, Block};
use oracle::{Book, Position, Task};

/// A task's bytes from column, kind letter, bottom and top of each block.
pub fn task(blocks: &[(u8, char, i16, i16)]) -> Vec<u8> {
    let block = |&(column, letter, bottom, top): &(u8, char, i16, i16)| Block {
        column,
        kind: Kind::from_letter(letter as u8).expect("a kind letter"),
        bottom,
        top,
    };
    let blocks: Vec<Block> = blocks.iter().map(block).collect();
    bytes_of(&blocks)
}

/// Kind bytes from letters.
pub fn kinds(letters: &str) -> Vec<u8> {
    let byte = |letter| Kind::from_letter(letter).expect("a kind letter").byte();
    letters.bytes().map(byte).collect()
}

/// The record of a new device.
pub fn card(rows: u32, letters: &str) -> Vec<u8> {
    // Filled with something, so that new is seen to write every byte.
    let mut record = vec![0xA5; RECORD_SIZE];
    assert_eq!(calls::new(&mut record, rows, &kinds(letters)), 0);
    record
}

/// The listing of a task as column, step, first and last, or the refusal.
pub fn listing(record: &[u8], task: &[u8]) -> Result<Vec<(u32, i32, i32, i32)>, i32> {
    let mut output = vec![0x5A; LIST_ROOM];
    let answer = calls::list(record, task, &mut output);
    let Ok(count) = usize::try_from(answer) else {
        assert!(output.iter().all(|&byte| byte == 0x5A));
        return Err(answer);
    };
    assert!(output[6 * count..].iter().all(|&byte| byte == 0x5A));
    let ranges = read_ranges(&output, count);
    Ok(ranges
        .iter()
        .map(|range| (range.column, range.step, range.first, range.last))
        .collect())
}

/// A column's intervals through the view, as bottom and top.
pub fn view(record: &[u8], column: u32) -> Vec<(u16, u16)> {
    let part = calls::view(record, column);
    let pair = |b: &[u8]| {
        let bottom = u16::from_le_bytes([b[0], b[1]]);
        (bottom, u16::from_le_bytes([b[2], b[3]]))
    };
    part.chunks(4).map(pair).collect()
}

/// n and s of a task at a position of a book.
pub fn score_of(book: &Book, bytes: &[u8], column: u32, bottom: i32) -> (i64, i64) {
    let task = Task::from_bytes(bytes).unwrap();
    let at = Position { column, bottom };
    let score = score(book.device(), &book.free_cells(), &task, at).unwrap();
    (score.pieces, score.stretch)
}
