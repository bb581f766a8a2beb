//! The device that a card is made for.

use crate::layout::{COLUMNS_AT, KINDS_AT, MAX_COLUMNS, MAX_ROWS, ROWS_AT};
use crate::{DeviceFault, Kind, Refusal};

/// A device within the limits: its rows, and the kinds of its columns from the left.
///
/// ```
/// use card::{Device, Kind, Refusal};
///
/// let device = Device::new(5, &[Kind::C, Kind::C, Kind::B])?;
/// assert_eq!(Device::from_text(5, "CCB"), Ok(device));
/// assert_eq!(device.columns(), 3);
/// assert_eq!(device.kind(2), Some(Kind::B));
/// // 10 half rows hold two cells of 5 half rows.
/// assert_eq!(device.cells(2), 2);
///
/// assert_eq!(Device::new(129, &[Kind::C]), Err(Refusal::DeviceOrColumn));
/// # Ok::<(), Refusal>(())
/// ```
#[derive(Clone, Copy, Debug, PartialEq, Eq, Hash)]
pub struct Device {
    rows: u16,
    columns: u8,
    // Kinds of columns that are not there are C, so that equal devices have equal fields.
    kinds: [Kind; MAX_COLUMNS],
}

impl Device {
    /// A device of so many rows (1 to 128) and one column for each kind (1 to 64), or −3.
    pub fn new(rows: u16, kinds: &[Kind]) -> Result<Device, Refusal> {
        check_limits(rows, kinds.len())?;
        let mut all = [Kind::C; MAX_COLUMNS];
        all[..kinds.len()].copy_from_slice(kinds);
        Ok(Device {
            rows,
            columns: kinds.len() as u8,
            kinds: all,
        })
    }

    /// A device of so many rows (1 to 128) and one column for each letter: C, B or D, as the sheet has them.
    ///
    /// Looks at the rows first, then at the number of letters (1 to 64), then at the letters from the left.
    /// The fault turns into the refusal −3 with `?`, where a [`Refusal`] is returned.
    ///
    /// ```
    /// use card::{Device, DeviceFault, Refusal};
    ///
    /// fn columns(kinds: &str) -> Result<u8, Refusal> {
    ///     Ok(Device::from_text(5, kinds)?.columns())
    /// }
    /// assert_eq!(columns("CCB"), Ok(3));
    /// assert_eq!(columns("CCb"), Err(Refusal::DeviceOrColumn));
    ///
    /// let fault = DeviceFault::Letter { column: 2, letter: 'b' };
    /// assert_eq!(Device::from_text(5, "CCb"), Err(fault));
    /// assert_eq!(Device::from_text(0, "C"), Err(DeviceFault::Rows(0)));
    /// ```
    pub fn from_text(rows: u16, kinds: &str) -> Result<Device, DeviceFault> {
        let columns = kinds.chars().count();
        check_limits(rows, columns)?;
        let mut all = [Kind::C; MAX_COLUMNS];
        for (column, letter) in kinds.chars().enumerate() {
            all[column] =
                Kind::try_from(letter).map_err(|_| DeviceFault::Letter { column, letter })?;
        }
        Ok(Device {
            rows,
            columns: columns as u8,
            kinds: all,
        })
    }

    /// The device of a record's bytes, where its numbers are within the limits.
    pub(crate) fn of_record(record: &[u8]) -> Option<Device> {
        let rows = u16::from_le_bytes([record[ROWS_AT], record[ROWS_AT + 1]]);
        let bytes = &record[KINDS_AT..KINDS_AT + MAX_COLUMNS];
        let columns = usize::from(record[COLUMNS_AT]);
        let mut kinds = [Kind::C; MAX_COLUMNS];
        for (kind, &byte) in kinds.iter_mut().zip(bytes) {
            *kind = Kind::from_byte(byte)?;
        }
        Device::new(rows, kinds.get(..columns)?).ok()
    }

    /// The rows; a row is two half rows.
    pub fn rows(&self) -> u16 {
        self.rows
    }

    /// The half rows: two in each row.
    ///
    /// ```
    /// assert_eq!(card::Device::from_text(5, "C")?.half_rows(), 10);
    /// # Ok::<(), card::DeviceFault>(())
    /// ```
    pub fn half_rows(&self) -> u16 {
        2 * self.rows
    }

    /// How many columns there are.
    pub fn columns(&self) -> u8 {
        self.columns
    }

    /// The kinds of the columns, from the left.
    pub fn kinds(&self) -> &[Kind] {
        &self.kinds[..usize::from(self.columns)]
    }

    /// A column's kind, if there is such a column.
    pub fn kind(&self, column: u8) -> Option<Kind> {
        self.kinds().get(usize::from(column)).copied()
    }

    /// How many cells a column has; 0 where there is no such column.
    pub fn cells(&self, column: u8) -> u16 {
        self.kind(column)
            .map_or(0, |kind| self.half_rows() / kind.height().unsigned_abs())
    }

    /// The half row above a column's last cell; 0 where there is no such column. Half rows from there on are in no cell.
    ///
    /// ```
    /// use card::Device;
    ///
    /// // 6 half rows: three cells of logic, or one of memory with a half row above it.
    /// let device = Device::from_text(3, "CB")?;
    /// assert_eq!((device.top(0), device.top(1)), (6, 5));
    /// # Ok::<(), card::DeviceFault>(())
    /// ```
    pub fn top(&self, column: u8) -> u16 {
        self.kind(column)
            .map_or(0, |kind| kind.height().unsigned_abs() * self.cells(column))
    }

    /// The kinds as bytes; those after the last column are 0.
    pub(crate) fn kind_bytes(&self) -> [u8; MAX_COLUMNS] {
        self.kinds.map(Kind::byte)
    }
}

/// The limits of a device, its rows first.
fn check_limits(rows: u16, columns: usize) -> Result<(), DeviceFault> {
    if !(1..=MAX_ROWS).contains(&rows) {
        return Err(DeviceFault::Rows(rows));
    }
    if !(1..=MAX_COLUMNS).contains(&columns) {
        return Err(DeviceFault::Columns(columns));
    }
    Ok(())
}
