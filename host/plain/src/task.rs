//! A task's blocks, read once from its bytes, with all that makes it well-formed tested on the way.

use crate::layout::{is_whole, BLOCK_SIZE, MAX_BLOCKS, MAX_COLUMNS, MAX_KIND, REACH};

/// A block; its bottom and top count from where the task's first block begins.
///
/// The fields are as narrow as the bytes they come from: a task is read for every running entry.
#[derive(Clone, Copy, Debug)]
pub struct Block {
    column: u8,
    kind: u8,
    bottom: i16,
    top: i16,
}

/// A well-formed task.
pub struct Task {
    blocks: [Block; MAX_BLOCKS],
    count: usize,
}

/// Whether the bytes are those of 1 to 32 whole blocks.
pub fn is_sized(bytes: &[u8]) -> bool {
    !bytes.is_empty()
        && bytes.len() <= BLOCK_SIZE * MAX_BLOCKS
        && bytes.len().is_multiple_of(BLOCK_SIZE)
}

impl Block {
    const ZERO: Block = Block {
        column: 0,
        kind: 0,
        bottom: 0,
        top: 0,
    };

    /// The block of six bytes.
    pub fn from_bytes(bytes: &[u8]) -> Block {
        Block {
            column: bytes[0],
            kind: bytes[1],
            bottom: i16::from_le_bytes([bytes[2], bytes[3]]),
            top: i16::from_le_bytes([bytes[4], bytes[5]]),
        }
    }

    /// The column, counted from the task's first.
    pub fn column(&self) -> usize {
        usize::from(self.column)
    }

    /// The kind byte, 0 to 2.
    pub fn kind(&self) -> u8 {
        self.kind
    }

    /// The lowest half row.
    pub fn bottom(&self) -> i32 {
        i32::from(self.bottom)
    }

    /// The half row above the highest.
    pub fn top(&self) -> i32 {
        i32::from(self.top)
    }

    /// The half rows that it covers.
    pub fn size(&self) -> u32 {
        (self.top() - self.bottom()) as u32
    }
}

/// What well-formedness asks of one block alone.
fn block_ok(block: &Block) -> bool {
    block.column() < MAX_COLUMNS
        && block.kind <= MAX_KIND
        && block.bottom() >= -REACH
        && block.top() <= REACH
        && block.bottom < block.top
        && is_whole(block.kind, block.size())
}

/// What well-formedness asks of two blocks in a row.
fn follows(previous: &Block, block: &Block) -> bool {
    block.column > previous.column
        || (block.column == previous.column
            && block.kind == previous.kind
            && block.bottom > previous.top)
}

/// Goes through the blocks of a task, and says of each whether a well-formed task goes on with it.
pub struct Order {
    previous: Option<Block>,
}

impl Order {
    /// Before the first block.
    pub const START: Order = Order { previous: None };

    /// Whether a well-formed task may have the block next.
    #[inline]
    pub fn goes_on(&mut self, block: &Block) -> bool {
        let is_next = match self.previous {
            None => block.column == 0 && block.bottom == 0,
            Some(previous) => follows(&previous, block),
        };
        self.previous = Some(*block);
        is_next && block_ok(block)
    }
}

impl Task {
    /// Reads bytes of a good length; none where the task is not well-formed.
    pub fn from_bytes(bytes: &[u8]) -> Option<Task> {
        let mut task = Task {
            blocks: [Block::ZERO; MAX_BLOCKS],
            count: bytes.len() / BLOCK_SIZE,
        };
        let mut order = Order::START;
        for (place, bytes) in task.blocks.iter_mut().zip(bytes.chunks_exact(BLOCK_SIZE)) {
            *place = Block::from_bytes(bytes);
            if !order.goes_on(place) {
                return None;
            }
        }
        Some(task)
    }

    /// The blocks.
    pub fn blocks(&self) -> &[Block] {
        &self.blocks[..self.count]
    }

    /// The highest column of the task, counted from its first.
    pub fn last_column(&self) -> usize {
        self.blocks().last().map_or(0, Block::column)
    }
}
