//! Times of works, in processor time of this thread, in short rounds.
//!
//! In a round every work is measured once, for a fraction of a millisecond, and each round begins
//! with another work. A ratio is taken within a round, and a row's figure is the median over the
//! rounds: what slows the machine for longer than a round slows both sides of the ratio, and what
//! is shorter spoils some rounds, for either side, which the median leaves out.

use std::collections::BTreeMap;
use std::hint::black_box;
use std::sync::OnceLock;
use std::time::Duration;

use crate::clock::processor_time;

/// Something to measure: runs so many times and answers the time of one run of the measured part, in ns.
pub type Work<'a> = Box<dyn FnMut(u32) -> f64 + 'a>;

/// A work under the name of what it measures.
pub type Named<'a> = (&'static str, Work<'a>);

/// The times of each work in ns, by name, one for each round.
pub type Samples = BTreeMap<&'static str, Vec<f64>>;

/// How long is measured.
#[derive(Clone, Copy, Debug)]
pub struct Effort {
    /// How many rounds there are.
    pub rounds: usize,
    /// How long a work takes in a round, about.
    pub turn: Duration,
}

/// How often the clock is read to learn what a reading costs.
const READINGS: usize = 1001;

/// What reading the clock costs, in ns.
fn reading_cost() -> f64 {
    static COST: OnceLock<f64> = OnceLock::new();
    let reading = |_| {
        let start = processor_time();
        (processor_time() - start).as_nanos() as f64
    };
    *COST.get_or_init(|| median((0..READINGS).map(reading).collect()))
}

/// The processor time of a body in ns, less that of reading the clock.
fn timed(body: impl FnOnce()) -> f64 {
    let cost = reading_cost();
    let start = processor_time();
    body();
    (processor_time() - start).as_nanos() as f64 - cost
}

/// A work whose whole body is measured.
pub fn whole<'a, T>(mut body: impl FnMut() -> T + 'a) -> Work<'a> {
    Box::new(move |times| {
        let time = timed(|| {
            for _ in 0..times {
                black_box(body());
            }
        });
        time / f64::from(times)
    })
}

/// A work of two halves that undo each other, of which one is measured.
///
/// Each half is done to so many things one after the other, since reading the clock takes about as
/// long as a short call.
pub fn half<'a>(first: bool, things: usize, mut halves: impl FnMut(bool, usize) + 'a) -> Work<'a> {
    Box::new(move |times| {
        let mut sum = 0.0;
        for _ in 0..times {
            for is_first in [true, false] {
                let time = timed(|| (0..things).for_each(|thing| halves(is_first, thing)));
                if is_first == first {
                    sum += time;
                }
            }
        }
        sum / (f64::from(times) * things as f64)
    })
}

/// How often a work runs in its turn.
fn times_of(work: &mut Work, turn: Duration) -> u32 {
    let mut times = 1;
    loop {
        let start = processor_time();
        work(times);
        // Counted with what is not measured, so that a turn is never long.
        if (processor_time() - start) * 2 >= turn || times >= 1 << 20 {
            return times;
        }
        times *= 2;
    }
}

/// Measures some works in rounds in which they take turns.
pub fn rounds(mut works: Vec<Named>, effort: Effort) -> Samples {
    // Learnt before any work is tried: otherwise it would count for the first one, which would then run but once in its turn.
    reading_cost();
    let times = |(_, work): &mut Named| times_of(work, effort.turn);
    let times: Vec<u32> = works.iter_mut().map(times).collect();
    take_turns(&mut works, &times, effort.rounds)
}

/// The rounds themselves; each begins with the work after the one that the last began with.
pub fn take_turns(works: &mut [Named], times: &[u32], rounds: usize) -> Samples {
    let mut samples = Samples::new();
    for round in 0..rounds {
        for turn in 0..works.len() {
            let index = (round + turn) % works.len();
            let (name, work) = &mut works[index];
            samples.entry(name).or_default().push(work(times[index]));
        }
    }
    samples
}

/// The number at a part of the way from the least to the greatest, or between the two next to it.
fn quantile(sorted: &[f64], part: f64) -> f64 {
    let place = part * (sorted.len() - 1) as f64;
    let below = sorted[place.floor() as usize];
    let above = sorted[place.ceil() as usize];
    below + (above - below) * place.fract()
}

/// The lower quartile, the median and the upper quartile of some numbers, at least one.
pub fn quartiles(mut numbers: Vec<f64>) -> [f64; 3] {
    numbers.sort_by(f64::total_cmp);
    [0.25, 0.5, 0.75].map(|part| quantile(&numbers, part))
}

/// The middle of some numbers, at least one.
pub fn median(numbers: Vec<f64>) -> f64 {
    quartiles(numbers)[1]
}
