//! Tasks: blocks, how they are read from bytes, and when a task is well-formed.

use crate::device::{Kind, MAX_COLUMNS};
use crate::refusal::Refusal;

/// The bytes of one block.
pub const BLOCK_SIZE: usize = 6;
/// The most blocks that a task has.
pub const MAX_BLOCKS: usize = 32;
/// How far a block's bottom and top are from 0 at most.
pub const REACH: i64 = 256;

/// A block; its bottom and top count from where the task's first block begins.
#[derive(Clone, Copy, Debug, PartialEq, Eq, Hash)]
pub struct Block {
    /// The column, counted from the task's own first column.
    pub column: u8,
    /// The kind of column that the block needs.
    pub kind: Kind,
    /// The lowest half row of the block.
    pub bottom: i16,
    /// The half row just above the block.
    pub top: i16,
}

impl Block {
    /// Reads six bytes; there is no block where the kind byte names no kind.
    pub fn from_bytes(bytes: [u8; BLOCK_SIZE]) -> Option<Block> {
        Some(Block {
            column: bytes[0],
            kind: Kind::from_byte(bytes[1])?,
            bottom: i16::from_le_bytes([bytes[2], bytes[3]]),
            top: i16::from_le_bytes([bytes[4], bytes[5]]),
        })
    }

    /// The block's six bytes.
    pub fn to_bytes(self) -> [u8; BLOCK_SIZE] {
        let bottom = self.bottom.to_le_bytes();
        let top = self.top.to_le_bytes();
        [
            self.column,
            self.kind.byte(),
            bottom[0],
            bottom[1],
            top[0],
            top[1],
        ]
    }
}

/// A well-formed task, with the bytes that it was read from.
#[derive(Clone, Debug, PartialEq, Eq)]
pub struct Task {
    bytes: Vec<u8>,
    blocks: Vec<Block>,
}

impl Task {
    /// Reads a task, or refuses with −4 (its length) or −5 (not well-formed).
    pub fn from_bytes(bytes: &[u8]) -> Result<Task, Refusal> {
        let too_long = bytes.len() > MAX_BLOCKS * BLOCK_SIZE;
        if bytes.is_empty() || too_long || !bytes.len().is_multiple_of(BLOCK_SIZE) {
            return Err(Refusal::TaskLength);
        }
        let blocks = read_blocks(bytes).ok_or(Refusal::TaskNotWellFormed)?;
        if !is_well_formed(&blocks) {
            return Err(Refusal::TaskNotWellFormed);
        }
        Ok(Task {
            bytes: bytes.to_vec(),
            blocks,
        })
    }

    /// Reads a task from blocks, with the same refusals.
    pub fn from_blocks(blocks: &[Block]) -> Result<Task, Refusal> {
        Task::from_bytes(&bytes_of(blocks))
    }

    /// The block bytes of the task.
    pub fn bytes(&self) -> &[u8] {
        &self.bytes
    }

    /// The blocks of the task.
    pub fn blocks(&self) -> &[Block] {
        &self.blocks
    }

    /// The step of the task's ranges: the height of its blocks, or 10 where they have both heights.
    pub fn step(&self) -> i64 {
        let some_c = self.blocks.iter().any(|block| block.kind == Kind::C);
        let some_other = self.blocks.iter().any(|block| block.kind != Kind::C);
        match (some_c, some_other) {
            (true, false) => 2,
            (true, true) => 10,
            _ => 5,
        }
    }
}

/// The bytes of a list of blocks, well-formed or not.
pub fn bytes_of(blocks: &[Block]) -> Vec<u8> {
    blocks.iter().flat_map(|block| block.to_bytes()).collect()
}

/// Reads whole blocks; none where a kind byte is above 2.
pub fn read_blocks(bytes: &[u8]) -> Option<Vec<Block>> {
    bytes
        .chunks_exact(BLOCK_SIZE)
        .map(|b| Block::from_bytes([b[0], b[1], b[2], b[3], b[4], b[5]]))
        .collect()
}

/// What well-formedness asks of one block alone.
fn block_ok(block: &Block) -> bool {
    let bottom = i64::from(block.bottom);
    let top = i64::from(block.top);
    let size = top - bottom;
    usize::from(block.column) < MAX_COLUMNS
        && bottom >= -REACH
        && top <= REACH
        && size > 0
        && size % block.kind.height() == 0
}

/// What well-formedness asks of two blocks in a row.
fn follows(previous: &Block, block: &Block) -> bool {
    if block.column != previous.column {
        // To the right, and as far as one likes.
        return block.column > previous.column;
    }
    // With a gap: two blocks that touch have to be written as one.
    block.kind == previous.kind && block.bottom > previous.top
}

/// Well-formedness: of the first block, of each block, and of neighbours.
fn is_well_formed(blocks: &[Block]) -> bool {
    let first_is_good = blocks
        .first()
        .is_some_and(|first| first.column == 0 && first.bottom == 0);
    first_is_good
        && blocks.iter().all(block_ok)
        && blocks.windows(2).all(|pair| follows(&pair[0], &pair[1]))
}
