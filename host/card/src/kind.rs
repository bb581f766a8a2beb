//! The kinds of columns.

use core::fmt;

use crate::Refusal;

/// The kind of a column, or of the column that a block needs; named by its letter.
///
/// ```
/// use card::Kind;
///
/// assert_eq!(Kind::B.letter(), 'B');
/// assert_eq!(Kind::try_from('B'), Ok(Kind::B));
/// assert_eq!(Kind::B.height(), 5);
/// ```
#[derive(Clone, Copy, Debug, PartialEq, Eq, Hash)]
#[repr(u8)]
pub enum Kind {
    /// Logic (CLB), byte 0: a cell is 2 half rows high.
    C = 0,
    /// Memory (BRAM), byte 1: a cell is 5 half rows high.
    B = 1,
    /// Multiplier (DSP), byte 2: a cell is 5 half rows high.
    D = 2,
}

impl Kind {
    /// All kinds, in the order of their bytes.
    pub const ALL: [Kind; 3] = [Kind::C, Kind::B, Kind::D];

    /// The height of a cell, in half rows.
    pub const fn height(self) -> i16 {
        match self {
            Kind::C => 2,
            Kind::B | Kind::D => 5,
        }
    }

    /// Its letter: C, B or D.
    pub const fn letter(self) -> char {
        match self {
            Kind::C => 'C',
            Kind::B => 'B',
            Kind::D => 'D',
        }
    }

    /// The byte that stands for the kind in records and tasks: 0, 1 or 2.
    pub const fn byte(self) -> u8 {
        self as u8
    }

    /// The kind that a byte stands for, if any.
    pub fn from_byte(byte: u8) -> Option<Kind> {
        Kind::ALL.get(usize::from(byte)).copied()
    }
}

/// Reads a kind's letter; any other is a malformed device, −3.
impl TryFrom<char> for Kind {
    type Error = Refusal;

    fn try_from(letter: char) -> Result<Kind, Refusal> {
        let found = Kind::ALL.into_iter().find(|kind| kind.letter() == letter);
        found.ok_or(Refusal::DeviceOrColumn)
    }
}

/// Shows the letter.
impl fmt::Display for Kind {
    fn fmt(&self, f: &mut fmt::Formatter<'_>) -> fmt::Result {
        fmt::Display::fmt(&self.letter(), f)
    }
}
