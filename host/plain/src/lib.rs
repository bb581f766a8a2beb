//! The calls of the model (`docs/MODEL.md`) in plain Rust, **unverified**.
//!
//! It has the algorithms and the checks of the proved library, written as an
//! engineer writes them who need not prove anything. Three ways of its check are
//! shorter: it reads each block once, for its form and its cells, where the library
//! reads it once for each; bits above a column's top are set at first, where the
//! library masks them as it reads a word; and it ors all differences of a column,
//! where the library stops at the first. Its use is to measure the proved library
//! against it, and to try out the tests and the benchmark.
//!
//! Where to find what: [`layout`] the constants, [`column`](mod@column) intervals cut and
//! joined, [`task`](mod@task) blocks, [`record`] the record, [`cells`] and [`sound`] its check,
//! [`listing`] and [`choice`] the searches, [`fragments`] the connected sets of free cells,
//! [`calls`] the calls themselves.

#![deny(missing_docs)]
#![forbid(unsafe_code)]

pub mod calls;
pub mod cells;
pub mod choice;
pub mod column;
pub mod fragments;
pub mod layout;
pub mod listing;
pub mod record;
pub mod sound;
pub mod task;

pub use calls::{choose, fragmentation, interval_count, list, new, place, release, view};
