//! Histories: calls made one after the other, on a record or on the book alone,
//! so that the two can be compared.

use crate::book::Book;
use crate::calls::{self, answer};

/// One call of a history, with arguments of its own.
#[derive(Clone, Debug, PartialEq, Eq)]
pub enum Call {
    /// List a task into an output of so many bytes, all the same before the call.
    List {
        /// The task's bytes.
        task: Vec<u8>,
        /// The output's length.
        output_bytes: usize,
        /// The byte that fills the output before the call.
        fill: u8,
    },
    /// Choose a position for a task.
    Choose {
        /// The task's bytes.
        task: Vec<u8>,
    },
    /// Place a task.
    Place {
        /// The task's bytes.
        task: Vec<u8>,
        /// The number to enter it under.
        number: u32,
        /// The position's column.
        column: u32,
        /// The position's bottom.
        bottom: i32,
    },
    /// Release a task.
    Release {
        /// The number it was entered under.
        number: u32,
    },
}

/// What a call gave: its answer, and the output it was lent (empty but for list).
#[derive(Clone, Debug, PartialEq, Eq)]
pub struct Outcome {
    /// The answer.
    pub answer: i32,
    /// The whole output, as the call left it.
    pub output: Vec<u8>,
}

impl Outcome {
    /// The outcome of a call that is lent no output.
    pub fn plain(answer: i32) -> Outcome {
        let output = Vec::new();
        Outcome { answer, output }
    }
}

impl Call {
    /// The bytes of the task that the call asks for or places; none for a release.
    pub fn task(&self) -> Option<&[u8]> {
        match self {
            Call::List { task, .. } | Call::Choose { task } | Call::Place { task, .. } => {
                Some(task)
            }
            Call::Release { .. } => None,
        }
    }

    /// The output that the call is lent, as it is before the call.
    pub fn lent_output(&self) -> Vec<u8> {
        match self {
            Call::List {
                output_bytes, fill, ..
            } => vec![*fill; *output_bytes],
            _ => Vec::new(),
        }
    }

    /// Runs the call on a record.
    pub fn on_record(&self, record: &mut [u8]) -> Outcome {
        match self {
            Call::List { task, .. } => {
                let mut output = self.lent_output();
                let answer = calls::list(record, task, &mut output);
                Outcome { answer, output }
            }
            Call::Choose { task } => Outcome::plain(calls::choose(record, task)),
            Call::Place {
                task,
                number,
                column,
                bottom,
            } => Outcome::plain(calls::place(record, task, *number, *column, *bottom)),
            Call::Release { number } => Outcome::plain(calls::release(record, *number)),
        }
    }

    /// Runs the call on a book, which reads no record.
    pub fn on_book(&self, book: &mut Book) -> Outcome {
        match self {
            Call::List { task, .. } => {
                let mut output = self.lent_output();
                let listed = book.list(task, &mut output);
                let answer = answer(listed.map(|count| count as i32));
                Outcome { answer, output }
            }
            Call::Choose { task } => {
                let chosen = book.choose(task);
                Outcome::plain(answer(chosen.map(|position| position.answer())))
            }
            Call::Place {
                task,
                number,
                column,
                bottom,
            } => {
                let placed = book.place(task, *number, *column, *bottom);
                Outcome::plain(answer(placed.map(|()| 0)))
            }
            Call::Release { number } => {
                let released = book.release(*number);
                Outcome::plain(answer(released.map(|()| 0)))
            }
        }
    }
}
