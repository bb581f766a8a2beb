//! Runs random histories without end and compares each call with the oracle.
//!
//!     endless [IMPLEMENTATION] [SEED] [CALLS]
//!
//! The implementation is `plain` or `proved`, by default the first of [`SUBJECTS`];
//! a history has up to so many calls, by default 2,000.
//! Each history has a seed of its own, counted up from the first, so that one
//! that differs is named by its seed and can be run again by itself.

#![deny(missing_docs)]
#![forbid(unsafe_code)]

use std::env;
use std::io::{self, Write};
use std::process::ExitCode;
use std::time::{Duration, Instant};

use calls::{Calls, SUBJECTS};
use trials::histories::{add, run_seed, Answers};

/// What the command line asks for.
struct Wish {
    subject: &'static dyn Calls,
    seed: u64,
    calls: usize,
}

/// Reads the command line; none where it is not of the form above.
fn wish() -> Option<Wish> {
    let mut words = env::args().skip(1).peekable();
    let named = words
        .peek()
        .and_then(|word| SUBJECTS.into_iter().find(|subject| subject.name() == word));
    if named.is_some() {
        words.next();
    }
    let mut number = |default| words.next().map_or(Some(default), |word| word.parse().ok());
    let seed = number(1)?;
    let calls = number(2000)?;
    words.next().is_none().then_some(Wish {
        subject: named.unwrap_or(SUBJECTS[0]),
        seed,
        calls: calls as usize,
    })
}

/// One line that is written over itself.
fn report(wish: &Wish, seed: u64, answers: &Answers, since: Instant) {
    let calls: usize = answers.values().sum();
    let refused: usize = answers.range(..0).map(|(_, count)| count).sum();
    let seconds = since.elapsed().as_secs();
    let histories = seed - wish.seed + 1;
    let name = wish.subject.name();
    print!("\r{name}: {histories} histories, {calls} calls, {refused} refused, {seconds} s, seed {seed} ");
    // A closed terminal is no reason to stop.
    let _ = io::stdout().flush();
}

fn main() -> ExitCode {
    let Some(wish) = wish() else {
        eprintln!("usage: endless [IMPLEMENTATION] [SEED] [CALLS]");
        return ExitCode::from(2);
    };
    let start = Instant::now();
    let mut shown = start;
    let mut answers = Answers::new();
    for seed in wish.seed.. {
        match run_seed(wish.subject, seed, wish.calls) {
            Ok(more) => add(&mut answers, more),
            Err(mismatch) => {
                println!("\n{mismatch}");
                return ExitCode::FAILURE;
            }
        }
        if shown.elapsed() > Duration::from_secs(1) {
            report(&wish, seed, &answers, start);
            shown = Instant::now();
        }
    }
    ExitCode::SUCCESS
}
