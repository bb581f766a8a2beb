//! A record, changed by the implementation on trial, and the oracle's book, side by side.

use std::cell::OnceCell;

use calls::Calls;
use oracle::fragments::Fragmentation;
use oracle::history::{Call, Outcome};
use oracle::layout::RECORD_SIZE;
use oracle::record::record_of;
use oracle::{Book, Device, Refusal};

use crate::{ensure, Trial};

/// The byte that a record is full of before new.
const JUNK: u8 = 0xA5;

/// What the two numbers of fragmentation are before it writes them.
const JUNK_NUMBERS: (i32, i32) = (0x5A5A_5A5A, -0x5A5A_5A5A);

/// A record and the book that it must be the record of.
#[derive(Clone)]
pub struct Pair<'a> {
    subject: &'a dyn Calls,
    book: Book,
    record: Vec<u8>,
    /// The book's record, kept so that it is made once for each change.
    expected: Vec<u8>,
    /// How broken up the book is, counted once for each change, and only where it is asked for.
    broken_up: OnceCell<Fragmentation>,
}

/// Runs a call of a history on a record.
pub fn run(subject: &dyn Calls, call: &Call, record: &mut [u8]) -> Outcome {
    match call {
        Call::List { task, .. } => {
            let mut output = call.lent_output();
            let answer = subject.list(record, task, &mut output);
            Outcome { answer, output }
        }
        Call::Choose { task } => Outcome::plain(subject.choose(record, task)),
        Call::Place {
            task,
            number,
            column,
            bottom,
        } => Outcome::plain(subject.place(record, task, *number, *column, *bottom)),
        Call::Release { number } => Outcome::plain(subject.release(record, *number)),
    }
}

/// What fragmentation answers for a record and writes: the answer, the free cells, the degree.
pub fn fragmentation(subject: &dyn Calls, record: &[u8]) -> [i32; 3] {
    let (mut free, mut degree) = JUNK_NUMBERS;
    let answer = subject.fragmentation(record, &mut free, &mut degree);
    [answer, free, degree]
}

/// The first byte that differs, for messages.
pub fn first_difference(left: &[u8], right: &[u8]) -> String {
    match left.iter().zip(right).position(|(a, b)| a != b) {
        Some(at) => format!("byte {at} is {} and not {}", left[at], right[at]),
        None => format!("{} bytes and not {}", left.len(), right.len()),
    }
}

impl<'a> Pair<'a> {
    /// Starts a history with new on a device.
    pub fn new(subject: &'a dyn Calls, device: Device) -> Trial<Pair<'a>> {
        let mut record = vec![JUNK; RECORD_SIZE];
        let answer = subject.new(&mut record, device.rows(), &device.kind_bytes());
        ensure(answer == 0, || format!("new answers {answer} and not 0"))?;
        let pair = Pair::on_record(subject, Book::on(device), record);
        pair.check_record("new")?;
        Ok(pair)
    }

    /// Starts from the record of a book.
    pub fn on_book(subject: &'a dyn Calls, book: Book) -> Pair<'a> {
        let record = record_of(&book);
        Pair::on_record(subject, book, record)
    }

    /// Starts from bytes that are said to be the record of a book.
    pub fn on_record(subject: &'a dyn Calls, book: Book, record: Vec<u8>) -> Pair<'a> {
        Pair {
            expected: record_of(&book),
            broken_up: OnceCell::new(),
            subject,
            book,
            record,
        }
    }

    /// The book.
    pub fn book(&self) -> &Book {
        &self.book
    }

    /// Makes a call on both and compares the answer, the whole output and the whole record.
    pub fn call(&mut self, call: &Call) -> Trial<i32> {
        let given = run(self.subject, call, &mut self.record);
        let wanted = call.on_book(&mut self.book);
        let changes = matches!(call, Call::Place { .. } | Call::Release { .. });
        if changes && wanted.answer == 0 {
            self.expected = record_of(&self.book);
            self.broken_up = OnceCell::new();
        }
        ensure(given.answer == wanted.answer, || {
            let (given, wanted) = (given.answer, wanted.answer);
            format!("answers {given} and not {wanted}: {call:?}")
        })?;
        ensure(given.output == wanted.output, || {
            let what = first_difference(&given.output, &wanted.output);
            format!("output: {what}: {call:?}")
        })?;
        self.check_record(call)?;
        Ok(wanted.answer)
    }

    /// Asks for a column's interval count on both.
    pub fn count(&self, column: u32) -> Trial<i32> {
        let given = self.subject.interval_count(&self.record, column);
        let is_there = (column as usize) < self.book.device().columns();
        let wanted = if is_there {
            self.book.intervals(column as usize).len() as i32
        } else {
            Refusal::DeviceOrColumn.number()
        };
        ensure(given == wanted, || {
            format!("interval count of column {column} is {given} and not {wanted}")
        })?;
        Ok(given)
    }

    /// Asks both how broken up the card is, and compares all three numbers and the whole record.
    pub fn fragmentation(&self) -> Trial<Fragmentation> {
        let given = fragmentation(self.subject, &self.record);
        let wanted = self.broken_up.get_or_init(|| self.book.fragmentation());
        let same = given.map(i64::from) == [wanted.sets, wanted.free, wanted.degree];
        ensure(same, || format!("fragmentation: {given:?}, not {wanted:?}"))?;
        self.check_record("fragmentation")?;
        Ok(*wanted)
    }

    /// The record is the book's, byte for byte.
    fn check_record(&self, after: impl std::fmt::Debug) -> Trial<()> {
        ensure(self.record == self.expected, || {
            let what = first_difference(&self.record, &self.expected);
            format!("record: {what}: after {after:?}")
        })
    }
}
