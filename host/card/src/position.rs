//! Where a task stands.

use core::fmt;

use crate::layout::COLUMN_WEIGHT;

/// A position: where a task's first block starts. Positions are ordered by column, then by bottom.
///
/// ```
/// use card::Position;
///
/// let position = Position::new(3, 10);
/// assert_eq!(position, Position { column: 3, bottom: 10 });
/// assert_eq!(position.to_string(), "column 3, bottom 10");
/// assert!(Position::new(2, 200) < position);
/// ```
#[derive(Clone, Copy, Debug, PartialEq, Eq, PartialOrd, Ord, Hash)]
pub struct Position {
    /// The column, from 0 at the left.
    pub column: u8,
    /// The lowest half row, from 0.
    pub bottom: i16,
}

impl Position {
    /// The position at a column and a bottom; whether a task fits there is judged by the calls.
    pub const fn new(column: u8, bottom: i16) -> Position {
        Position { column, bottom }
    }

    /// The position that choose answers.
    pub(crate) fn of_answer(answer: u32) -> Position {
        // A device has at most 64 columns and 256 half rows, so both casts keep the value.
        Position::new(
            (answer / COLUMN_WEIGHT) as u8,
            (answer % COLUMN_WEIGHT) as i16,
        )
    }
}

impl fmt::Display for Position {
    fn fmt(&self, f: &mut fmt::Formatter<'_>) -> fmt::Result {
        write!(f, "column {}, bottom {}", self.column, self.bottom)
    }
}
