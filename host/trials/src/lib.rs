//! Trials: any implementation of the calls compared with the oracle.
//!
//! Everything is written over [`calls::Calls`] and answers a [`Mismatch`] where
//! an answer, an output or a record differs in any byte, so that wrong
//! implementations can be tried too and must be found out (`tests/faults`).
//!
//! Where to find what:
//! - [`suite`]: all trials in one list, each in a short and in a full size;
//! - [`pair`]: a record and the oracle's book side by side, call by call;
//! - [`histories`]: random histories, short and long, on small and large cards;
//! - [`shapes`]: shapes with a 2-step and a 5-step, releases between free stretches, no position;
//! - [`combs`]: tasks with several blocks in one free interval;
//! - [`damage`]: damaged records, wrong lengths, random bytes;
//! - [`flaws`]: records in which one sentence alone does not hold;
//! - [`small`]: small cards exhaustively;
//! - [`fragments`]: cards that are broken up, as labyrinths and at the limits;
//! - [`limits`]: cards, tasks and arguments at the limits.

#![deny(missing_docs)]
#![forbid(unsafe_code)]

pub mod combs;
pub mod damage;
pub mod flaws;
pub mod fragments;
pub mod histories;
pub mod limits;
pub mod pair;
pub mod shapes;
pub mod small;
pub mod suite;

use std::fmt;

/// What differed, with the call and its place in the history.
#[derive(Clone, Debug, PartialEq, Eq)]
pub struct Mismatch(pub String);

impl fmt::Display for Mismatch {
    fn fmt(&self, f: &mut fmt::Formatter<'_>) -> fmt::Result {
        f.write_str(&self.0)
    }
}

impl std::error::Error for Mismatch {}

/// What a trial gives where nothing differed.
pub type Trial<T> = Result<T, Mismatch>;

/// A trial that found a difference unless something holds.
pub fn ensure(holds: bool, what: impl FnOnce() -> String) -> Trial<()> {
    if holds {
        Ok(())
    } else {
        Err(Mismatch(what()))
    }
}
