//! The running tasks of a card.

use core::{fmt, ops};

use crate::layout::{BLOCKS_AT, BLOCK_SIZE, ENTRY_SIZE};
use crate::layout::{ENTRY_BOTTOM_AT, ENTRY_COLUMN_AT, ENTRY_COUNT_AT, ENTRY_NUMBER_AT};
use crate::parts::parts;
use crate::{Block, Position, Task};

/// A running task.
///
/// ```
/// use card::{Kind, Position, Running, Task};
///
/// let running = Running {
///     number: 7,
///     position: Position::new(0, 4),
///     task: Task::of(Kind::C, 2),
/// };
/// assert!(running.holds(0, 5) && !running.holds(0, 6));
/// assert_eq!(running.to_string(), "number 7 at column 0, bottom 4");
/// ```
#[derive(Clone, Copy, Debug, PartialEq, Eq, Hash)]
pub struct Running {
    /// The number that it runs under.
    pub number: u16,
    /// Where it was placed.
    pub position: Position,
    /// The task itself.
    pub task: Task,
}

impl Running {
    pub(crate) const SIZE: usize = ENTRY_SIZE;

    /// Reads a running entry of a sound record.
    fn read(entry: &[u8; ENTRY_SIZE]) -> Running {
        let word = |at: usize| [entry[at], entry[at + 1]];
        let end = BLOCKS_AT + BLOCK_SIZE * usize::from(entry[ENTRY_COUNT_AT]);
        Running {
            number: u16::from_le_bytes(word(ENTRY_NUMBER_AT)),
            position: Position {
                column: entry[ENTRY_COLUMN_AT],
                bottom: i16::from_le_bytes(word(ENTRY_BOTTOM_AT)),
            },
            task: Task::from_bytes(&entry[BLOCKS_AT..end]).expect("a running task is well-formed"),
        }
    }

    /// Whether the task holds a half row of a column: whether a block of it, where it stands, covers it.
    pub fn holds(&self, column: u8, half_row: i16) -> bool {
        self.task.blocks().any(|block| {
            let (held, half_rows) = self.moved(block);
            held == usize::from(column) && half_rows.contains(&half_row.into())
        })
    }

    /// A block moved to the task's position: its column and its half rows.
    pub(crate) fn moved(&self, block: Block) -> (usize, ops::Range<i32>) {
        let Position { column, bottom } = self.position;
        // Wide enough for any fields, also for those that no card has.
        let moved = |half_row: i16| i32::from(bottom) + i32::from(half_row);
        let column = usize::from(column) + usize::from(block.column);
        (column, moved(block.bottom)..moved(block.top))
    }
}

/// Shows the number and the position.
impl fmt::Display for Running {
    fn fmt(&self, f: &mut fmt::Formatter<'_>) -> fmt::Result {
        write!(f, "number {} at {}", self.number, self.position)
    }
}

parts! {
    /// The running tasks of a card, by rising number; read from the record itself.
    RunningTasks of Running
}
