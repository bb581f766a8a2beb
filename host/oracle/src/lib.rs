//! A reference implementation ("oracle") of documents 01 and 02, cell by cell.
//!
//! It is written from these documents alone (of 02, W1 and W2 are in), without a
//! look at the definitions of the proved library, and searches by trying everything:
//! every position, every cell. The library is compared with it, so where the two
//! differ one of them has misread a document. `docs/MODEL.md` states the same in
//! numbered clauses.
//!
//! Where to find what:
//! - [`device`], [`task`]: the device with its cells, and tasks with their blocks;
//! - [`cells`], [`fit`]: sets of cells, intervals, and whether a task fits;
//! - [`book`]: the book of a history and the four calls on it;
//! - [`listing`], [`choice`]: the ranges and the chosen position;
//! - [`fragments`]: how broken up a card is, as three numbers;
//! - [`layout`], [`record`], [`sound`]: the record's bytes, written and judged;
//! - [`calls`], [`history`]: the calls on byte strings, and lists of calls;
//! - [`line`](mod@line), [`sheet`](mod@sheet): the line reader and the sheet program;
//! - [`rng`], [`arbitrary`]: random cards for comparisons.
//!
//! ```
//! use oracle::{calls, layout::RECORD_SIZE};
//!
//! let mut record = vec![0; RECORD_SIZE];
//! assert_eq!(calls::new(&mut record, 5, &[0]), 0);
//! // One logic block of one cell, placed at half row 4 of column 0.
//! let task = [0, 0, 0, 0, 2, 0];
//! assert_eq!(calls::place(&mut record, &task, 7, 0, 4), 0);
//! assert_eq!(calls::view(&record, 0), [0, 0, 4, 0, 6, 0, 10, 0]);
//! ```

#![deny(missing_docs)]
#![forbid(unsafe_code)]

pub mod arbitrary;
pub mod book;
pub mod calls;
pub mod cells;
pub mod choice;
pub mod device;
pub mod fit;
pub mod fragments;
pub mod history;
pub mod layout;
pub mod line;
pub mod listing;
pub mod record;
pub mod refusal;
pub mod rng;
pub mod sheet;
pub mod sound;
pub mod task;

pub use book::Book;
pub use device::{Device, Kind};
pub use fit::Position;
pub use refusal::Refusal;
pub use sheet::sheet;
pub use task::Task;
