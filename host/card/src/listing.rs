//! A listing: ranges, and the positions that they name.

use core::fmt;
use core::iter::{FusedIterator, StepBy};
use core::ops::RangeInclusive;

use crate::layout::RANGE_SIZE;
use crate::parts::parts;
use crate::Position;

/// A range of a listing: the positions first, first + step, and so on to last, in one column.
///
/// ```
/// use card::Range;
///
/// let range = Range { column: 1, step: 5, first: 0, last: 10 };
/// let bottoms: Vec<i16> = range.positions().map(|position| position.bottom).collect();
/// assert_eq!(bottoms, [0, 5, 10]);
/// assert_eq!(range.to_string(), "column 1, bottom 0 to 10 by 5");
///
/// let lone = Range { last: 0, ..range };
/// assert_eq!(lone.to_string(), "column 1, bottom 0");
/// ```
#[derive(Clone, Copy, Debug, PartialEq, Eq, Hash)]
pub struct Range {
    /// The column of all positions.
    pub column: u8,
    /// How far the bottoms are apart, in half rows: 2, 5 or 10.
    pub step: u8,
    /// The lowest bottom.
    pub first: i16,
    /// The highest bottom.
    pub last: i16,
}

impl Range {
    pub(crate) const SIZE: usize = RANGE_SIZE;

    /// Reads a range of a listing.
    fn read(bytes: &[u8; RANGE_SIZE]) -> Range {
        let [column, step, first @ .., last_low, last_high] = *bytes;
        Range {
            column,
            step,
            first: i16::from_le_bytes(first),
            last: i16::from_le_bytes([last_low, last_high]),
        }
    }

    /// Each position that the range names, upwards.
    pub fn positions(self) -> Positions {
        // A lone position needs no step, so a step of 0 is taken too.
        let step = usize::from(self.step.max(1));
        Positions {
            column: self.column,
            bottoms: (self.first..=self.last).step_by(step),
        }
    }
}

/// Shows the column, the first and last bottom and the step; of a lone position, what [`Position`] shows.
impl fmt::Display for Range {
    fn fmt(&self, f: &mut fmt::Formatter<'_>) -> fmt::Result {
        write!(f, "{}", Position::new(self.column, self.first))?;
        if self.first == self.last {
            return Ok(());
        }
        write!(f, " to {} by {}", self.last, self.step)
    }
}

parts! {
    /// The ranges of a listing, by column and then by first; read from the output that list was lent.
    Ranges of Range
}

/// The positions of a [`Range`], upwards.
#[derive(Clone, Debug)]
pub struct Positions {
    column: u8,
    bottoms: StepBy<RangeInclusive<i16>>,
}

impl Positions {
    /// The position at a bottom of the range's column.
    fn at(&self, bottom: i16) -> Position {
        Position::new(self.column, bottom)
    }
}

impl Iterator for Positions {
    type Item = Position;

    fn next(&mut self) -> Option<Position> {
        self.bottoms.next().map(|bottom| self.at(bottom))
    }

    fn size_hint(&self) -> (usize, Option<usize>) {
        self.bottoms.size_hint()
    }
}

impl DoubleEndedIterator for Positions {
    fn next_back(&mut self) -> Option<Position> {
        self.bottoms.next_back().map(|bottom| self.at(bottom))
    }
}

impl ExactSizeIterator for Positions {}

impl FusedIterator for Positions {}
