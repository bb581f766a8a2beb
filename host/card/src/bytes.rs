//! The calls on byte slices, with the model's answers (`docs/MODEL.md`): the C calling form made safe, and nothing more.
//!
//! Each function takes any arguments at all: what the table of refusals has
//! is refused by its number, and no byte changes (a refused [`fragmentation`] sets its two numbers
//! to 0). [`outcome`](crate::outcome) turns an answer into a `Result`. [`Card`](crate::Card) is the same with types.
//!
//! Every call but new checks the whole record first, byte by byte and task by
//! task; [`Card`](crate::Card#what-a-call-costs) says what that costs.
//!
//! ```
//! use card::bytes;
//!
//! let mut record = vec![0; card::RECORD_SIZE];
//! assert_eq!(bytes::new(&mut record, 5, &[0]), 0);
//! // One logic block of one cell, placed at half row 4 of column 0.
//! let task = [0, 0, 0, 0, 2, 0];
//! assert_eq!(bytes::place(&mut record, &task, 7, 0, 4), 0);
//! assert_eq!(bytes::interval_count(&record, 0), 2);
//! let (mut free, mut degree) = (0, 0);
//! assert_eq!(bytes::fragmentation(&record, &mut free, &mut degree), 2);
//! assert_eq!((free, degree), (4, 3_333));
//! assert_eq!(bytes::release(&mut record, 7), 0);
//! assert_eq!(bytes::choose(&record, &task), 0);
//! ```

use crate::raw;

/// New: writes the record of a device of so many rows, with a column for each kind byte
/// (0 logic, 1 memory, 2 multiplier), and all cells free. Answers 0, −1 or −3.
pub fn new(record: &mut [u8], rows: u32, kinds: &[u8]) -> i32 {
    // SAFETY: each pointer goes with the length of the slice it comes from, and the
    // callee, proved to stay within them, keeps neither.
    unsafe {
        raw::card_new(
            record.as_mut_ptr(),
            record.len(),
            rows,
            kinds.as_ptr(),
            kinds.len(),
        )
    }
}

/// Place: puts the task into the record under a number, at a column and a bottom in half rows,
/// so that it holds its cells. Answers 0, −1, −2, −4, −5, −7, −8 or −10.
pub fn place(record: &mut [u8], task: &[u8], number: u32, column: u32, bottom: i32) -> i32 {
    // SAFETY: as in `new`.
    unsafe {
        raw::card_place(
            record.as_mut_ptr(),
            record.len(),
            task.as_ptr(),
            task.len(),
            number,
            column,
            bottom,
        )
    }
}

/// Release: frees the cells of a running task and removes it. Answers 0, −1, −2 or −11.
pub fn release(record: &mut [u8], number: u32) -> i32 {
    // SAFETY: as in `new`.
    unsafe { raw::card_release(record.as_mut_ptr(), record.len(), number) }
}

/// List: writes the ranges of positions at which a task fits, 6 bytes each, and answers
/// their number, or −1, −2, −4, −5, −6 or −9. The output's bytes behind them are not written.
pub fn list(record: &[u8], task: &[u8], output: &mut [u8]) -> i32 {
    // SAFETY: as in `new`.
    unsafe {
        raw::card_list(
            record.as_ptr(),
            record.len(),
            task.as_ptr(),
            task.len(),
            output.as_mut_ptr(),
            output.len(),
        )
    }
}

/// Choose: answers the best position of a task as column × 1,024 + bottom, or −1, −2, −4,
/// −5 or −9.
pub fn choose(record: &[u8], task: &[u8]) -> i32 {
    // SAFETY: as in `new`.
    unsafe { raw::card_choose(record.as_ptr(), record.len(), task.as_ptr(), task.len()) }
}

/// Interval count: answers how many free intervals a column has, or −1, −2 or −3.
pub fn interval_count(record: &[u8], column: u32) -> i32 {
    // SAFETY: as in `new`.
    unsafe { raw::card_interval_count(record.as_ptr(), record.len(), column) }
}

/// Fragmentation: answers how many connected sets the free cells make, and writes how many cells are
/// free and the degree in hundredths of a percent; [`Fragmentation`](crate::Fragmentation) says what
/// these are. Or answers −1 or −2, and writes two zeros.
pub fn fragmentation(record: &[u8], free: &mut i32, degree: &mut i32) -> i32 {
    // SAFETY: as in `new`, and each of the two numbers is borrowed alone.
    unsafe { raw::card_fragmentation(record.as_ptr(), record.len(), free, degree) }
}
