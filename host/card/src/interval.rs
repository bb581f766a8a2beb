//! The free intervals of a column.

use core::fmt;

use crate::layout::INTERVAL_SIZE;
use crate::parts::parts;

/// Free cells one above the other, with no further free one below or above them: from bottom up to top, excluded, in half rows.
///
/// ```
/// use card::Interval;
///
/// let free = Interval { bottom: 4, top: 10 };
/// assert!(free.contains(9) && !free.contains(10));
/// assert_eq!(free.to_string(), "4 up to 10");
/// ```
#[derive(Clone, Copy, Debug, PartialEq, Eq, Hash)]
pub struct Interval {
    /// The lowest half row.
    pub bottom: i16,
    /// The half row above the highest one.
    pub top: i16,
}

impl Interval {
    pub(crate) const SIZE: usize = INTERVAL_SIZE;

    /// Reads an interval of a record.
    fn read(bytes: &[u8; INTERVAL_SIZE]) -> Interval {
        let [bottom @ .., top_low, top_high] = *bytes;
        Interval {
            bottom: i16::from_le_bytes(bottom),
            top: i16::from_le_bytes([top_low, top_high]),
        }
    }

    /// Whether a half row is in the interval.
    pub fn contains(self, half_row: i16) -> bool {
        (self.bottom..self.top).contains(&half_row)
    }
}

/// Shows the two half rows: `4 up to 10`.
impl fmt::Display for Interval {
    fn fmt(&self, f: &mut fmt::Formatter<'_>) -> fmt::Result {
        write!(f, "{} up to {}", self.bottom, self.top)
    }
}

parts! {
    /// The free intervals of a column, upwards; read from the record itself.
    Intervals of Interval
}
