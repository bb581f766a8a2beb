//! Random histories: after every call the answer, the output, the record and its fragmentation are the book's.

use std::collections::BTreeMap;

use calls::Calls;
use oracle::arbitrary::{self, Mood};
use oracle::calls as wanted;
use oracle::layout::RECORD_SIZE;
use oracle::rng::Rng;
use oracle::task::bytes_of;
use oracle::{Device, Position};

use crate::pair::{first_difference, Pair};
use crate::shapes::{block, place_call, unused_number};
use crate::{ensure, Mismatch, Trial};

/// How often each answer came; all counts and positions are one.
pub type Answers = BTreeMap<i32, usize>;

/// Adds up answers.
pub fn add(all: &mut Answers, more: Answers) {
    for (answer, count) in more {
        *all.entry(answer).or_default() += count;
    }
}

/// A small device, on which tasks are often in each other's way.
pub fn small_device(rng: &mut Rng) -> Device {
    let rows = rng.between(1, 12) as u32;
    let kinds: Vec<u8> = (0..rng.between(1, 4))
        .map(|_| rng.pick(&[0, 0, 1, 2]))
        .collect();
    Device::new(rows, &kinds).expect("the limits are kept")
}

/// The largest device, with columns of every kind.
pub fn largest_device(rng: &mut Rng) -> Device {
    let kinds: Vec<u8> = (0..64).map(|_| rng.pick(&[0, 0, 0, 1, 2])).collect();
    Device::new(128, &kinds).expect("the limits are kept")
}

/// Any device.
pub fn any_device(rng: &mut Rng) -> Device {
    match rng.below(3) {
        0 => small_device(rng),
        _ => arbitrary::device(rng),
    }
}

/// Runs a random history of so many calls on a device.
pub fn run(
    subject: &dyn Calls,
    rng: &mut Rng,
    device: Device,
    mood: Mood,
    calls: usize,
) -> Trial<Answers> {
    let pair = Pair::new(subject, device)?;
    go_on(pair, rng, mood, calls)
}

/// Goes on with a history by so many random calls.
fn go_on(mut pair: Pair, rng: &mut Rng, mood: Mood, calls: usize) -> Trial<Answers> {
    let mut answers = Answers::new();
    for index in 0..calls {
        let call = arbitrary::call(rng, pair.book(), mood);
        let answer = pair
            .call(&call)
            .map_err(|what| Mismatch(format!("call {index}: {what}")))?;
        *answers.entry(answer.min(1)).or_default() += 1;
        pair.fragmentation()
            .map_err(|what| Mismatch(format!("after call {index}: {what}")))?;
        if rng.percent(10) {
            pair.count(rng.below(66) as u32)?;
        }
    }
    Ok(answers)
}

/// Runs the history of a seed: device, mood and calls all come from it.
pub fn run_seed(subject: &dyn Calls, seed: u64, most_calls: usize) -> Trial<Answers> {
    let mut rng = Rng::new(seed);
    let device = any_device(&mut rng);
    let mood = arbitrary::mood(&mut rng);
    let calls = 1 + rng.below(most_calls);
    run(subject, &mut rng, device, mood, calls)
        .map_err(|what| Mismatch(format!("seed {seed}: {what}")))
}

/// Runs the histories of many seeds.
pub fn many(subject: &dyn Calls, first: u64, count: u64, most_calls: usize) -> Trial<Answers> {
    let mut answers = Answers::new();
    for seed in first..first + count {
        add(&mut answers, run_seed(subject, seed, most_calls)?);
    }
    Ok(answers)
}

/// One long history on a small card, where most calls meet running tasks.
pub fn long_on_small(subject: &dyn Calls, seed: u64, calls: usize) -> Trial<Answers> {
    let mut rng = Rng::new(seed);
    let device = small_device(&mut rng);
    let mood = Mood {
        place: 55,
        ask: 30,
        odd: 10,
        blocks: rng.pick(&[1, 2, 4]),
    };
    run(subject, &mut rng, device, mood, calls)
}

/// One long history on the largest card, with so many blocks in a task at most.
///
/// It begins with 50 tasks of one cell, so that all of it has many tasks running.
pub fn long_on_largest(
    subject: &dyn Calls,
    seed: u64,
    calls: usize,
    blocks: usize,
) -> Trial<Answers> {
    let mut rng = Rng::new(seed);
    let mut pair = Pair::new(subject, largest_device(&mut rng))?;
    while pair.book().running().len() < 50 {
        place_a_cell(&mut pair, &mut rng)?;
    }
    let mood = Mood {
        place: 65,
        ask: 10,
        odd: 5,
        blocks,
    };
    go_on(pair, &mut rng, mood, calls)
}

/// Places a task of one cell somewhere, or is refused because the cell is held.
fn place_a_cell(pair: &mut Pair, rng: &mut Rng) -> Trial<i32> {
    let device = pair.book().device();
    let column = rng.below(device.columns());
    let kind = device.kinds()[column];
    let cell = rng.below(device.cells(column));
    let at = Position {
        column: column as u32,
        bottom: (cell as i64 * kind.height()) as i32,
    };
    let task = bytes_of(&[block(0, kind, 0, 1)]);
    let number = unused_number(pair.book());
    pair.call(&place_call(&task, number, at))
}

/// New with arguments within and without the limits, on records of all lengths.
pub fn devices(subject: &dyn Calls, seed: u64, count: usize) -> Trial<Answers> {
    let mut rng = Rng::new(seed);
    let mut answers = Answers::new();
    let lengths = [0, 1, RECORD_SIZE - 1, RECORD_SIZE + 1, 2 * RECORD_SIZE];
    for _ in 0..count {
        let (rows, kinds) = arbitrary::device_arguments(&mut rng);
        let length = match rng.percent(20) {
            true => rng.pick(&lengths),
            false => RECORD_SIZE,
        };
        let mut record = vec![rng.byte(); length];
        let mut expected = record.clone();
        let answer = subject.new(&mut record, rows, &kinds);
        let right = wanted::new(&mut expected, rows, &kinds);
        ensure(answer == right && record == expected, || {
            let what = first_difference(&record, &expected);
            format!("new of {rows} rows, {kinds:?}: {answer}, not {right}: {what}")
        })?;
        *answers.entry(answer).or_default() += 1;
    }
    Ok(answers)
}
