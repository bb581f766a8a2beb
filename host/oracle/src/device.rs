//! The device: its rows, its columns with their kinds, and the cells of each column.

use crate::refusal::Refusal;

/// The most rows that a device has.
pub const MAX_ROWS: u32 = 128;
/// The most columns that a device has.
pub const MAX_COLUMNS: usize = 64;

/// A column's kind.
#[derive(Clone, Copy, Debug, PartialEq, Eq, Hash)]
pub enum Kind {
    /// Logic (CLB), byte 0.
    C,
    /// Memory (BRAM), byte 1.
    B,
    /// Multiplier (DSP), byte 2.
    D,
}

impl Kind {
    /// All kinds, in the order of their bytes.
    pub const ALL: [Kind; 3] = [Kind::C, Kind::B, Kind::D];

    /// The kind that a byte stands for, if any.
    pub fn from_byte(byte: u8) -> Option<Kind> {
        Kind::ALL.get(usize::from(byte)).copied()
    }

    /// The byte that stands for this kind.
    pub fn byte(self) -> u8 {
        match self {
            Kind::C => 0,
            Kind::B => 1,
            Kind::D => 2,
        }
    }

    /// The kind that a sheet's letter stands for, if any.
    pub fn from_letter(letter: u8) -> Option<Kind> {
        Kind::ALL.into_iter().find(|kind| kind.letter() == letter)
    }

    /// The letter that stands for this kind on a sheet.
    pub fn letter(self) -> u8 {
        match self {
            Kind::C => b'C',
            Kind::B => b'B',
            Kind::D => b'D',
        }
    }

    /// The height of one cell, in half rows.
    pub fn height(self) -> i64 {
        match self {
            Kind::C => 2,
            Kind::B | Kind::D => 5,
        }
    }

    /// How many cells a column of this kind has on a device of so many rows.
    pub fn cells(self, rows: u32) -> usize {
        // Only whole cells count, hence the floor.
        (2 * i64::from(rows) / self.height()) as usize
    }
}

/// A device within its limits.
#[derive(Clone, Debug, PartialEq, Eq)]
pub struct Device {
    rows: u32,
    kinds: Vec<Kind>,
}

impl Device {
    /// Makes a device from rows and kind bytes, or refuses with −3.
    pub fn new(rows: u32, kinds: &[u8]) -> Result<Device, Refusal> {
        let rows_are_good = (1..=MAX_ROWS).contains(&rows);
        let count_is_good = (1..=MAX_COLUMNS).contains(&kinds.len());
        if !rows_are_good || !count_is_good {
            return Err(Refusal::DeviceOrColumn);
        }
        let kinds: Option<Vec<Kind>> = kinds.iter().map(|&byte| Kind::from_byte(byte)).collect();
        match kinds {
            Some(kinds) => Ok(Device { rows, kinds }),
            None => Err(Refusal::DeviceOrColumn),
        }
    }

    /// The rows of the device.
    pub fn rows(&self) -> u32 {
        self.rows
    }

    /// The half rows of the device: twice its rows.
    pub fn half_rows(&self) -> i64 {
        2 * i64::from(self.rows)
    }

    /// The kinds of the columns, from the left.
    pub fn kinds(&self) -> &[Kind] {
        &self.kinds
    }

    /// The kind bytes of the columns, from the left.
    pub fn kind_bytes(&self) -> Vec<u8> {
        self.kinds.iter().map(|kind| kind.byte()).collect()
    }

    /// How many columns the device has.
    pub fn columns(&self) -> usize {
        self.kinds.len()
    }

    /// A column's kind, if there is such a column.
    pub fn kind(&self, column: usize) -> Option<Kind> {
        self.kinds.get(column).copied()
    }

    /// How many cells a column has; none where there is no such column.
    pub fn cells(&self, column: usize) -> usize {
        self.kind(column).map_or(0, |kind| kind.cells(self.rows))
    }

    /// The half row at which a column's last cell ends; what lies above is no cell.
    pub fn top(&self, column: usize) -> i64 {
        self.kind(column)
            .map_or(0, |kind| kind.height() * kind.cells(self.rows) as i64)
    }
}
