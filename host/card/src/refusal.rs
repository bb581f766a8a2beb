//! The refusals, by the table of `docs/MODEL.md`, 13.1.

use core::fmt;

/// Why a call did nothing; the discriminant is the number that the table has for it.
///
/// If more than one holds for a call, it gives the one closest to 0. A refused call changes no byte.
///
/// ```
/// use card::Refusal;
///
/// assert_eq!(Refusal::NoPosition.number(), -9);
/// assert_eq!(Refusal::from_number(-9), Some(Refusal::NoPosition));
/// assert_eq!(Refusal::NoPosition.to_string(), "the task fits nowhere (-9)");
/// ```
// Not `non_exhaustive`: the table says that these are the only ones. A later
// request that adds one changes the calls too, and then a `match` in the server
// should fail to compile, and not fall into a `_` arm.
#[derive(Clone, Copy, Debug, PartialEq, Eq, Hash)]
#[repr(i32)]
pub enum Refusal {
    /// The record has another length than [`RECORD_SIZE`](crate::RECORD_SIZE).
    RecordLength = -1,
    /// The record is not sound.
    RecordNotSound = -2,
    /// New: too few or too many rows or columns, or a byte that is no kind. Interval count: the device has no such column.
    DeviceOrColumn = -3,
    /// The task is not 1 to 32 whole blocks.
    TaskLength = -4,
    /// The task is not well-formed.
    TaskNotWellFormed = -5,
    /// List: the output is shorter than [`LIST_ROOM`](crate::LIST_ROOM).
    OutputShort = -6,
    /// Place: no task may have this number, or one runs under it already.
    BadNumber = -7,
    /// Place: as many tasks run as may.
    Full = -8,
    /// List and choose: the task fits nowhere.
    NoPosition = -9,
    /// Place: the task does not fit at this position, which may be off the device.
    Misfit = -10,
    /// Release: no task runs under this number.
    NotRunning = -11,
    /// Line reader: the line is malformed. It is there because the table is one; no call of this crate gives it.
    MalformedLine = -12,
}

impl Refusal {
    /// All refusals, in the table's order.
    pub const ALL: [Refusal; 12] = [
        Refusal::RecordLength,
        Refusal::RecordNotSound,
        Refusal::DeviceOrColumn,
        Refusal::TaskLength,
        Refusal::TaskNotWellFormed,
        Refusal::OutputShort,
        Refusal::BadNumber,
        Refusal::Full,
        Refusal::NoPosition,
        Refusal::Misfit,
        Refusal::NotRunning,
        Refusal::MalformedLine,
    ];

    /// The number that the table returns.
    pub fn number(self) -> i32 {
        self as i32
    }

    /// The refusal of a number, if the table has one.
    pub fn from_number(number: i32) -> Option<Refusal> {
        Refusal::ALL
            .into_iter()
            .find(|refusal| refusal.number() == number)
    }

    /// What the refusal says.
    fn text(self) -> &'static str {
        match self {
            Refusal::RecordLength => "the record has another length than 29,188 bytes",
            Refusal::RecordNotSound => "the record is not sound",
            Refusal::DeviceOrColumn => "no such device, or no such column",
            Refusal::TaskLength => "the task is not 1 to 32 whole blocks",
            Refusal::TaskNotWellFormed => "the task is not well-formed",
            Refusal::OutputShort => "the output has less than 24,576 bytes",
            Refusal::BadNumber => "the number is out of range, or runs already",
            Refusal::Full => "64 tasks run already",
            Refusal::NoPosition => "the task fits nowhere",
            Refusal::Misfit => "the task does not fit at this position",
            Refusal::NotRunning => "no task runs under the number",
            Refusal::MalformedLine => "the line is malformed",
        }
    }
}

impl fmt::Display for Refusal {
    fn fmt(&self, f: &mut fmt::Formatter<'_>) -> fmt::Result {
        write!(f, "{} ({})", self.text(), self.number())
    }
}

impl core::error::Error for Refusal {}

/// The answer of a call of [`bytes`](crate::bytes) as what it gives, or its refusal.
///
/// # Panics
/// On a number that no call answers.
///
/// ```
/// use card::{outcome, Refusal};
///
/// assert_eq!(outcome(3), Ok(3));
/// assert_eq!(outcome(-9), Err(Refusal::NoPosition));
/// ```
pub fn outcome(answer: i32) -> Result<u32, Refusal> {
    match (u32::try_from(answer), Refusal::from_number(answer)) {
        (Ok(given), _) => Ok(given),
        (Err(_), Some(refusal)) => Err(refusal),
        // MODEL 13.4: no call has any other negative answer.
        (Err(_), None) => unreachable!("{answer} is in no row of the table"),
    }
}
