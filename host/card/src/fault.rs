//! What is wrong with a device that is given as a text.

use core::fmt;

use crate::layout::{MAX_COLUMNS, MAX_ROWS};
use crate::Refusal;

/// Why [`Device::from_text`](crate::Device::from_text) makes no device. Each of these is a refusal of new, −3.
///
/// ```
/// use card::{DeviceFault, Refusal};
///
/// let fault = DeviceFault::Letter { column: 2, letter: 'X' };
/// assert_eq!(fault.to_string(), "column 2 is 'X', which is none of C, B and D");
/// assert_eq!(Refusal::from(fault), Refusal::DeviceOrColumn);
/// ```
#[derive(Clone, Copy, Debug, PartialEq, Eq, Hash)]
pub enum DeviceFault {
    /// The rows that were given: not 1 to 128.
    Rows(u16),
    /// How many letters were given: not 1 to 64.
    Columns(usize),
    /// A letter that is no kind.
    Letter {
        /// Its column, from 0 at the left.
        column: usize,
        /// The letter.
        letter: char,
    },
}

impl fmt::Display for DeviceFault {
    fn fmt(&self, f: &mut fmt::Formatter<'_>) -> fmt::Result {
        match self {
            DeviceFault::Rows(rows) => write!(f, "{rows} rows, not 1 to {MAX_ROWS}"),
            DeviceFault::Columns(columns) => write!(f, "{columns} columns, not 1 to {MAX_COLUMNS}"),
            DeviceFault::Letter { column, letter } => {
                write!(
                    f,
                    "column {column} is {letter:?}, which is none of C, B and D"
                )
            }
        }
    }
}

impl core::error::Error for DeviceFault {}

/// A malformed device is −3.
impl From<DeviceFault> for Refusal {
    fn from(_: DeviceFault) -> Refusal {
        Refusal::DeviceOrColumn
    }
}
