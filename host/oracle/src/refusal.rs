//! The refusals, a case for each row of document 01's table (MODEL 13.1).

use std::fmt;

/// A refusal; its discriminant is its number in the table.
#[derive(Clone, Copy, Debug, PartialEq, Eq, Hash)]
#[repr(i32)]
pub enum Refusal {
    /// The record has another length.
    RecordLength = -1,
    /// The record has the right length and is not sound.
    RecordNotSound = -2,
    /// New: this is no device. Interval count: the device has no column of that number.
    DeviceOrColumn = -3,
    /// The bytes are not those of 1 to 32 blocks.
    TaskLength = -4,
    /// The blocks are no well-formed task.
    TaskNotWellFormed = -5,
    /// List: the output is too short.
    OutputShort = -6,
    /// Place: the number can't be a task's, or is another task's.
    BadNumber = -7,
    /// Place: no further task may run.
    Full = -8,
    /// List and choose: the task fits nowhere.
    NoPosition = -9,
    /// Place: the task does not fit at this position.
    Misfit = -10,
    /// Release: no task has the number.
    NotRunning = -11,
    /// Line reader: the line is of no form that it reads.
    MalformedLine = -12,
}

impl Refusal {
    /// All refusals, in the table's order.
    pub const ALL: [Refusal; 12] = [
        Refusal::RecordLength,
        Refusal::RecordNotSound,
        Refusal::DeviceOrColumn,
        Refusal::TaskLength,
        Refusal::TaskNotWellFormed,
        Refusal::OutputShort,
        Refusal::BadNumber,
        Refusal::Full,
        Refusal::NoPosition,
        Refusal::Misfit,
        Refusal::NotRunning,
        Refusal::MalformedLine,
    ];

    /// Its number in the table.
    pub fn number(self) -> i32 {
        self as i32
    }
}

impl fmt::Display for Refusal {
    fn fmt(&self, f: &mut fmt::Formatter<'_>) -> fmt::Result {
        let text = match self {
            Refusal::RecordLength => "the record is not 29,188 bytes",
            Refusal::RecordNotSound => "the record is not sound",
            Refusal::DeviceOrColumn => "malformed device, or no such column",
            Refusal::TaskLength => "the task is not 1 to 32 whole blocks",
            Refusal::TaskNotWellFormed => "the task is not well-formed",
            Refusal::OutputShort => "the output has less than 24,576 bytes",
            Refusal::BadNumber => "the number is out of range, or runs already",
            Refusal::Full => "64 tasks run already",
            Refusal::NoPosition => "the task fits nowhere",
            Refusal::Misfit => "the task does not fit there",
            Refusal::NotRunning => "no task runs under the number",
            Refusal::MalformedLine => "the line is malformed",
        };
        write!(f, "{} ({})", text, self.number())
    }
}

impl std::error::Error for Refusal {}
