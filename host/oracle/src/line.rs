//! The line reader: one line of a sheet, read into a device or a call.

use std::fmt;

use crate::device::Kind;
use crate::refusal::Refusal;
use crate::task::Block;

/// The first line: the names before the device.
pub const FIRST_NAMES: &[u8] = b"rows kinds";
/// The third line: the names before the calls.
pub const SECOND_NAMES: &[u8] = b"call task column kind bottom top";
/// The most bytes of a line, without its newline.
pub const MAX_LINE: usize = 80;

/// A device line: what new is called with.
#[derive(Clone, Debug, PartialEq, Eq)]
pub struct DeviceLine {
    /// Rows, 0 to 65,535: whether they are a device's is for new to say.
    pub rows: u32,
    /// The kind bytes, at least one.
    pub kinds: Vec<u8>,
}

/// One of the six calls of a sheet.
#[derive(Clone, Copy, Debug, PartialEq, Eq)]
pub enum SheetCall {
    /// B: one block more in the draft.
    AddBlock(Block),
    /// N: the draft starts anew.
    EmptyDraft,
    /// L: where the draft fits.
    ListDraft,
    /// C: the best position for the draft.
    ChooseDraft,
    /// P: the draft runs from now on.
    PlaceDraft {
        /// The task number, 0 to 65,535.
        task: u16,
        /// The column, 0 to 255.
        column: u8,
        /// The bottom.
        bottom: i16,
    },
    /// R: a task ends.
    ReleaseTask {
        /// The task number, 0 to 65,535.
        task: u16,
    },
}

/// The line that the reader reads as this call.
impl fmt::Display for SheetCall {
    fn fmt(&self, f: &mut fmt::Formatter<'_>) -> fmt::Result {
        match self {
            SheetCall::AddBlock(block) => write!(
                f,
                "B 0 {} {} {} {}",
                block.column,
                char::from(block.kind.letter()),
                block.bottom,
                block.top
            ),
            SheetCall::EmptyDraft => f.write_str("N 0 0 - 0 0"),
            SheetCall::ListDraft => f.write_str("L 0 0 - 0 0"),
            SheetCall::ChooseDraft => f.write_str("C 0 0 - 0 0"),
            SheetCall::PlaceDraft {
                task,
                column,
                bottom,
            } => write!(f, "P {task} {column} - {bottom} 0"),
            SheetCall::ReleaseTask { task } => write!(f, "R {task} 0 - 0 0"),
        }
    }
}

/// The lines of an input, without newlines; bytes after the last newline are one more line.
pub fn lines(input: &[u8]) -> Vec<&[u8]> {
    let mut lines: Vec<&[u8]> = input.split(|&byte| byte == b'\n').collect();
    // What follows the last newline is a line only if there is something.
    if lines.last().is_some_and(|last| last.is_empty()) {
        lines.pop();
    }
    lines
}

/// Reads a names line: it is the expected one, or −12.
pub fn read_names(line: &[u8], names: &[u8]) -> Result<(), Refusal> {
    if line == names {
        Ok(())
    } else {
        Err(Refusal::MalformedLine)
    }
}

/// Reads a device line: rows and kind letters, or −12.
pub fn device_line(line: &[u8]) -> Result<DeviceLine, Refusal> {
    let fields = fields(line)?;
    let [rows, letters] = fields[..] else {
        return Err(Refusal::MalformedLine);
    };
    let rows: u16 = number(rows)?;
    let kinds: Result<Vec<u8>, Refusal> = letters.iter().map(|&l| Ok(kind(&[l])?.byte())).collect();
    let kinds = kinds?;
    if kinds.is_empty() {
        return Err(Refusal::MalformedLine);
    }
    let rows = u32::from(rows);
    Ok(DeviceLine { rows, kinds })
}

/// Reads a call line: one of the six calls, or −12.
pub fn sheet_line(line: &[u8]) -> Result<SheetCall, Refusal> {
    let fields = fields(line)?;
    let [call, task, column, kind_field, bottom, top] = fields[..] else {
        return Err(Refusal::MalformedLine);
    };
    let unused = |parts: &[&[u8]]| parts.iter().all(|&part| part == b"0");
    let no_kind = kind_field == b"-";
    match call {
        b"B" if unused(&[task]) => Ok(SheetCall::AddBlock(Block {
            column: number(column)?,
            kind: kind(kind_field)?,
            bottom: number(bottom)?,
            top: number(top)?,
        })),
        b"N" if no_kind && unused(&[task, column, bottom, top]) => Ok(SheetCall::EmptyDraft),
        b"L" if no_kind && unused(&[task, column, bottom, top]) => Ok(SheetCall::ListDraft),
        b"C" if no_kind && unused(&[task, column, bottom, top]) => Ok(SheetCall::ChooseDraft),
        b"P" if no_kind && unused(&[top]) => Ok(SheetCall::PlaceDraft {
            task: number(task)?,
            column: number(column)?,
            bottom: number(bottom)?,
        }),
        b"R" if no_kind && unused(&[column, bottom, top]) => Ok(SheetCall::ReleaseTask {
            task: number(task)?,
        }),
        _ => Err(Refusal::MalformedLine),
    }
}

/// The fields of a line that is not too long: what stands between its spaces.
fn fields(line: &[u8]) -> Result<Vec<&[u8]>, Refusal> {
    if line.len() > MAX_LINE {
        return Err(Refusal::MalformedLine);
    }
    Ok(line.split(|&byte| byte == b' ').collect())
}

/// One kind letter.
fn kind(field: &[u8]) -> Result<Kind, Refusal> {
    match field {
        &[letter] => Kind::from_letter(letter).ok_or(Refusal::MalformedLine),
        _ => Err(Refusal::MalformedLine),
    }
}

/// A decimal number in its field's range, in the one way in which it may be written.
///
/// The field's range is that of the type that is asked for.
fn number<N: TryFrom<i64>>(field: &[u8]) -> Result<N, Refusal> {
    let value = decimal(field).ok_or(Refusal::MalformedLine)?;
    N::try_from(value).map_err(|_| Refusal::MalformedLine)
}

/// The value of a decimal number; none where it is malformed or past every field's range.
fn decimal(field: &[u8]) -> Option<i64> {
    let (is_negative, digits) = match field {
        [b'-', digits @ ..] => (true, digits),
        digits => (false, digits),
    };
    let is_zero = digits == b"0";
    let leading_zero = digits.first() == Some(&b'0') && !is_zero;
    if digits.is_empty() || leading_zero || (is_zero && is_negative) {
        return None;
    }
    let mut value: i64 = 0;
    for digit in digits {
        if !digit.is_ascii_digit() {
            return None;
        }
        value = value
            .checked_mul(10)?
            .checked_add(i64::from(digit - b'0'))?;
    }
    Some(if is_negative { -value } else { value })
}
