//! Tasks and their blocks.

use core::fmt;

use crate::layout::{BLOCK_KIND_AT, BLOCK_SIZE, MAX_BLOCKS};
use crate::parts::parts;
use crate::{Kind, Refusal, TaskBuilder};

/// The bytes of a task of 32 blocks.
pub(crate) const TASK_SIZE: usize = MAX_BLOCKS * BLOCK_SIZE;

/// A block of a task: whole cells, one above the other, in one column.
///
/// ```
/// use card::{Block, Kind};
///
/// let block = Block { column: 2, kind: Kind::B, bottom: 1, top: 6 };
/// assert_eq!(block.to_string(), "column 2: B 1 up to 6");
/// ```
#[derive(Clone, Copy, Debug, PartialEq, Eq, Hash)]
pub struct Block {
    /// The column, relative to the task's first.
    pub column: u8,
    /// The kind of column that the block needs.
    pub kind: Kind,
    /// The lowest half row, relative to the first block's bottom; it may be negative.
    pub bottom: i16,
    /// The half row above the highest one, relative to the first block's bottom.
    pub top: i16,
}

impl Block {
    pub(crate) const SIZE: usize = BLOCK_SIZE;

    /// The block's bytes.
    pub(crate) fn to_bytes(self) -> [u8; BLOCK_SIZE] {
        let bottom = self.bottom.to_le_bytes();
        let top = self.top.to_le_bytes();
        let kind = self.kind.byte();
        [self.column, kind, bottom[0], bottom[1], top[0], top[1]]
    }

    /// Reads a block of a task.
    fn read(bytes: &[u8; BLOCK_SIZE]) -> Block {
        let [column, kind, bottom @ .., top_low, top_high] = *bytes;
        Block {
            column,
            kind: Kind::from_byte(kind).expect("a task was made with good kinds"),
            bottom: i16::from_le_bytes(bottom),
            top: i16::from_le_bytes([top_low, top_high]),
        }
    }
}

/// Shows the column, the kind and the half rows.
impl fmt::Display for Block {
    fn fmt(&self, f: &mut fmt::Formatter<'_>) -> fmt::Result {
        let Block {
            column,
            kind,
            bottom,
            top,
        } = self;
        write!(f, "column {column}: {kind} {bottom} up to {top}")
    }
}

parts! {
    /// The blocks of a task, in their order.
    Blocks of Block
}

/// A task: a circuit as 1 to 32 blocks, kept as its bytes (`docs/MODEL.md`, 4.1 and 4.2).
///
/// A task is a value of its own, without allocation. Its bytes are always whole
/// blocks, so no call refuses it with −4. Whether it is well-formed (the first
/// block at column 0 and bottom 0, columns that never fall, a gap between
/// blocks of one column, whole cells) is not judged here: the proved library
/// judges it at each call, and refuses with −5. [`check`](Task::check) says why.
///
/// ```
/// use card::{Kind, Task};
///
/// // One block of logic, two cells high.
/// let one = Task::of(Kind::C, 4);
/// // Three blocks: column, kind, bottom and top.
/// let three = Task::builder()
///     .block(0, Kind::C, 0, 2)
///     .block(1, Kind::C, -2, 2)
///     .block(2, Kind::B, 1, 6)
///     .build()?;
///
/// assert_eq!(one.as_bytes(), [0, 0, 0, 0, 4, 0]);
/// assert_eq!(three.blocks().len(), 3);
/// assert!(three.blocks().any(|block| block.kind == Kind::B));
/// assert_eq!(
///     three.to_string(),
///     "column 0: C 0 up to 2; column 1: C -2 up to 2; column 2: B 1 up to 6"
/// );
/// # Ok::<(), card::Refusal>(())
/// ```
#[derive(Clone, Copy, PartialEq, Eq, Hash)]
pub struct Task {
    // Bytes after the last block are 0, so that equal tasks have equal fields.
    bytes: [u8; TASK_SIZE],
    len: u8,
}

impl Task {
    /// A task of one block, so many half rows high: the height of a cell, or a multiple of it.
    pub fn of(kind: Kind, height: i16) -> Task {
        let block = Block {
            column: 0,
            kind,
            bottom: 0,
            top: height,
        };
        let mut bytes = [0; TASK_SIZE];
        bytes[..BLOCK_SIZE].copy_from_slice(&block.to_bytes());
        Task::from_parts(bytes, 1)
    }

    /// Starts a task of several blocks.
    pub fn builder() -> TaskBuilder {
        TaskBuilder::default()
    }

    /// The task of these blocks; −4 where there are none or over 32.
    ///
    /// ```
    /// use card::{Block, Kind, Task};
    ///
    /// let block = Block { column: 0, kind: Kind::C, bottom: 0, top: 4 };
    /// assert_eq!(Task::from_blocks(&[block]), Ok(Task::of(Kind::C, 4)));
    /// ```
    pub fn from_blocks(blocks: &[Block]) -> Result<Task, Refusal> {
        let add = |task: TaskBuilder, block: &Block| {
            task.block(block.column, block.kind, block.bottom, block.top)
        };
        blocks.iter().fold(Task::builder(), add).build()
    }

    /// The task of these bytes: −4 where they are not 1 to 32 whole blocks,
    /// and −5 where a kind byte is above 2.
    ///
    /// ```
    /// use card::{Kind, Refusal, Task};
    ///
    /// assert_eq!(Task::from_bytes(&[0, 1, 0, 0, 5, 0]), Ok(Task::of(Kind::B, 5)));
    /// assert_eq!(Task::from_bytes(&[0, 1, 0, 0, 5]), Err(Refusal::TaskLength));
    /// ```
    pub fn from_bytes(bytes: &[u8]) -> Result<Task, Refusal> {
        let (blocks, rest) = bytes.as_chunks::<BLOCK_SIZE>();
        if !(1..=MAX_BLOCKS).contains(&blocks.len()) || !rest.is_empty() {
            return Err(Refusal::TaskLength);
        }
        if blocks
            .iter()
            .any(|block| Kind::from_byte(block[BLOCK_KIND_AT]).is_none())
        {
            return Err(Refusal::TaskNotWellFormed);
        }
        let mut all = [0; TASK_SIZE];
        all[..bytes.len()].copy_from_slice(bytes);
        Ok(Task::from_parts(all, blocks.len()))
    }

    /// The task of so many blocks, 1 to 32, whose kinds are good; the other bytes are 0.
    pub(crate) fn from_parts(bytes: [u8; TASK_SIZE], blocks: usize) -> Task {
        let len = (BLOCK_SIZE * blocks) as u8;
        Task { bytes, len }
    }

    /// The bytes, 6 for each block.
    pub fn as_bytes(&self) -> &[u8] {
        &self.bytes[..usize::from(self.len)]
    }

    /// The blocks, in their order.
    pub fn blocks(&self) -> Blocks<'_> {
        Blocks::of(self.as_bytes())
    }
}

impl fmt::Debug for Task {
    fn fmt(&self, f: &mut fmt::Formatter<'_>) -> fmt::Result {
        f.debug_tuple("Task").field(&self.blocks()).finish()
    }
}

/// Shows the blocks in their order, parted by `; `.
impl fmt::Display for Task {
    fn fmt(&self, f: &mut fmt::Formatter<'_>) -> fmt::Result {
        for (index, block) in self.blocks().enumerate() {
            let gap = if index == 0 { "" } else { "; " };
            write!(f, "{gap}{block}")?;
        }
        Ok(())
    }
}
