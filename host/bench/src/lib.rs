//! Measures the calls on an empty card, two busy cards, two cards full of combs, one full of rakes and two of
//! which every other cell is held, and makes the tables and the plot of the document from stored runs.
//!
//! [`measure`] has the rounds, [`loads`] the cards, with records as [`bytes`](mod@bytes), [`rows`] and [`growth`]
//! what is measured on them, [`run`] a stored run, [`summary`] all of them side by side, [`targets`] what they are
//! judged by, and [`table`], [`before`], [`plot`] and [`document`] what is made of them.

#![deny(missing_docs)]
#![deny(unsafe_code)]

pub mod before;
pub mod bytes;
#[allow(unsafe_code)]
pub mod clock;
pub mod document;
pub mod growth;
pub mod loads;
pub mod machine;
pub mod measure;
pub mod names;
pub mod plot;
pub mod rows;
pub mod run;
pub mod summary;
pub mod table;
pub mod targets;
