//! The calls on byte strings, with the shapes that the library has.
//!
//! Each call judges the record first, so −1 and −2 come before all others, and
//! writes only once nothing more can be refused. Fragmentation alone writes when it is
//! refused too: its second and third number, which are then 0.

use crate::book::Book;
use crate::layout::{column_part, COUNTS_AT, INTERVAL_SIZE, RECORD_SIZE};
use crate::record::record_of;
use crate::refusal::Refusal;
use crate::sound;

/// The answer of a call as a number: what it gives, or the refusal's number.
pub fn answer(result: Result<i32, Refusal>) -> i32 {
    result.unwrap_or_else(Refusal::number)
}

/// The book of a sound record, or −1 or −2.
pub fn book_of(record: &[u8]) -> Result<Book, Refusal> {
    sound::read(record).map_err(Refusal::from)
}

/// New: makes the record of a device on which nothing runs. Answers 0, −1 or −3.
pub fn new(record: &mut [u8], rows: u32, kinds: &[u8]) -> i32 {
    if record.len() != RECORD_SIZE {
        return Refusal::RecordLength.number();
    }
    let made = Book::new(rows, kinds);
    answer(made.map(|book| write(&book, record)))
}

/// Place: puts a task into the record. Answers 0, −1, −2, −4, −5, −7, −8 or −10.
pub fn place(record: &mut [u8], task: &[u8], number: u32, column: u32, bottom: i32) -> i32 {
    let placed = book_of(record).and_then(|mut book| {
        book.place(task, number, column, bottom)?;
        Ok(book)
    });
    answer(placed.map(|book| write(&book, record)))
}

/// Release: takes a task out of the record. Answers 0, −1, −2 or −11.
pub fn release(record: &mut [u8], number: u32) -> i32 {
    let released = book_of(record).and_then(|mut book| {
        book.release(number)?;
        Ok(book)
    });
    answer(released.map(|book| write(&book, record)))
}

/// List: writes the ranges. Answers how many, or −1, −2, −4, −5, −6 or −9.
pub fn list(record: &[u8], task: &[u8], output: &mut [u8]) -> i32 {
    let listed = book_of(record).and_then(|book| book.list(task, output));
    answer(listed.map(|count| count as i32))
}

/// Choose: answers column × 1,024 + bottom, or −1, −2, −4, −5 or −9.
pub fn choose(record: &[u8], task: &[u8]) -> i32 {
    let chosen = book_of(record).and_then(|book| book.choose(task));
    answer(chosen.map(|position| position.answer()))
}

/// Interval count: answers how many intervals a column has, or −1, −2 or −3.
pub fn interval_count(record: &[u8], column: u32) -> i32 {
    answer(count(record, column).map(|count| count as i32))
}

/// The view: the bytes of a column's intervals, in their place in the record; none where interval count refuses.
pub fn view(record: &[u8], column: u32) -> &[u8] {
    match count(record, column) {
        Ok(count) => &record[column_part(column as usize)][..INTERVAL_SIZE * count],
        Err(_) => &[],
    }
}

/// Fragmentation: answers how many connected sets the free cells form, or −1 or −2.
///
/// It writes how many cells are free, and the degree; two zeros where it refuses.
pub fn fragmentation(record: &[u8], free: &mut i32, degree: &mut i32) -> i32 {
    match book_of(record) {
        Ok(book) => {
            let numbers = book.fragmentation();
            *free = numbers.free as i32;
            *degree = numbers.degree as i32;
            numbers.sets as i32
        }
        Err(refusal) => {
            *free = 0;
            *degree = 0;
            refusal.number()
        }
    }
}

/// The interval count, as both interval calls need it.
fn count(record: &[u8], column: u32) -> Result<usize, Refusal> {
    let book = book_of(record)?;
    let column = usize::try_from(column).map_err(|_| Refusal::DeviceOrColumn)?;
    if column >= book.device().columns() {
        return Err(Refusal::DeviceOrColumn);
    }
    Ok(usize::from(record[COUNTS_AT + column]))
}

/// Overwrites a record of the right length with the book's, and answers 0.
fn write(book: &Book, record: &mut [u8]) -> i32 {
    record.copy_from_slice(&record_of(book));
    0
}
