//! Building a task block by block.

use crate::layout::{BLOCK_SIZE, MAX_BLOCKS};
use crate::task::TASK_SIZE;
use crate::{Block, Kind, Refusal, Task};

/// A task in the making, from [`Task::builder`].
///
/// ```
/// use card::{Kind, Refusal, Task};
///
/// // A comb: three blocks of one cell in one column, one cell apart.
/// let comb = (0..3).fold(Task::builder(), |task, tooth| {
///     task.block(0, Kind::C, 4 * tooth, 4 * tooth + 2)
/// });
/// assert_eq!(comb.build()?.blocks().len(), 3);
///
/// assert_eq!(Task::builder().build(), Err(Refusal::TaskLength));
/// # Ok::<(), Refusal>(())
/// ```
#[derive(Clone, Debug)]
#[must_use = "a builder does nothing until `build` is called"]
pub struct TaskBuilder {
    bytes: [u8; TASK_SIZE],
    /// How many blocks were given, also those that there is no room for.
    blocks: usize,
}

impl TaskBuilder {
    /// Adds a block: its column, its kind, and its bottom and top in half rows,
    /// relative to the first block's column and bottom.
    pub fn block(mut self, column: u8, kind: Kind, bottom: i16, top: i16) -> TaskBuilder {
        let block = Block {
            column,
            kind,
            bottom,
            top,
        };
        let (parts, _) = self.bytes.as_chunks_mut::<BLOCK_SIZE>();
        if let Some(part) = parts.get_mut(self.blocks) {
            *part = block.to_bytes();
        }
        self.blocks += 1;
        self
    }

    /// The task; −4 where no block was added or more than 32 were.
    pub fn build(self) -> Result<Task, Refusal> {
        match self.blocks {
            1..=MAX_BLOCKS => Ok(Task::from_parts(self.bytes, self.blocks)),
            _ => Err(Refusal::TaskLength),
        }
    }
}

impl Default for TaskBuilder {
    /// No block yet.
    fn default() -> TaskBuilder {
        TaskBuilder {
            bytes: [0; TASK_SIZE],
            blocks: 0,
        }
    }
}
