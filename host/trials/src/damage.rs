//! Damaged records: every call refuses what is not sound and changes no byte of it,
//! and takes what is sound, however it came to be.

use calls::Calls;
use oracle::arbitrary::{self, Mood};
use oracle::history::{Call, Outcome};
use oracle::layout::*;
use oracle::listing::LIST_ROOM;
use oracle::rng::Rng;
use oracle::task::BLOCK_SIZE;
use oracle::{sound, Book, Refusal};

use crate::pair::{fragmentation, run, Pair};
use crate::{ensure, Mismatch, Trial};

/// How many records were sound, and how many were not.
#[derive(Clone, Copy, Debug, Default, PartialEq, Eq)]
pub struct Tally {
    /// Sound ones.
    pub sound: usize,
    /// Others.
    pub unsound: usize,
}

/// One call of each kind, with arguments that a sound record would take.
pub fn one_of_each(rng: &mut Rng, book: &Book) -> Vec<Call> {
    let task = arbitrary::task(rng, book.device(), 4).bytes().to_vec();
    let mood = Mood {
        place: 100,
        ask: 0,
        odd: 0,
        blocks: 3,
    };
    let running = book.running().keys().next().copied().unwrap_or(1);
    vec![
        Call::List {
            task: task.clone(),
            output_bytes: LIST_ROOM,
            fill: rng.byte(),
        },
        Call::Choose { task },
        arbitrary::call(rng, book, mood),
        Call::Release {
            number: u32::from(running),
        },
    ]
}

/// Makes every call on the bytes, each on a copy of its own; answers whether they are sound.
pub fn judge(subject: &dyn Calls, bytes: &[u8], calls: &[Call]) -> Trial<bool> {
    match sound::read(bytes) {
        Ok(book) => {
            let pair = Pair::on_record(subject, book, bytes.to_vec());
            for call in calls {
                pair.clone().call(call)?;
            }
            pair.count(0)?;
            pair.fragmentation()?;
            Ok(true)
        }
        Err(unsound) => {
            refuses(subject, bytes, calls, Refusal::from(unsound).number())?;
            Ok(false)
        }
    }
}

/// Every call refuses the bytes with a number, and neither they nor an output change.
fn refuses(subject: &dyn Calls, bytes: &[u8], calls: &[Call], number: i32) -> Trial<()> {
    let mut record = bytes.to_vec();
    for call in calls {
        let given = run(subject, call, &mut record);
        let wanted = Outcome {
            answer: number,
            output: call.lent_output(),
        };
        ensure(given == wanted && record == bytes, || {
            let answer = given.answer;
            format!("not sound, {number}, yet {answer}, or bytes changed: {call:?}")
        })?;
    }
    let count = subject.interval_count(&record, 0);
    ensure(count == number && record == bytes, || {
        format!("not sound, {number}, yet interval count answers {count}")
    })?;
    // It writes two numbers all the same, and these are 0.
    let broken_up = fragmentation(subject, &record);
    ensure(broken_up == [number, 0, 0] && record == bytes, || {
        format!("not sound, {number}, yet fragmentation gives {broken_up:?}")
    })
}

/// Changes bytes of a book's record in turn: one in so many of the intervals and entries, and every
/// one of what stands before them and of the last ones.
pub fn every_byte(subject: &dyn Calls, seed: u64, book: &Book, one_in: usize) -> Trial<Tally> {
    let mut rng = Rng::new(seed);
    let calls = one_of_each(&mut rng, book);
    let mut record = oracle::record::record_of(book);
    let mut tally = Tally::default();
    let is_changed = |at: &usize| {
        let middle = INTERVALS_AT..RECORD_SIZE - BLOCK_SIZE;
        at.is_multiple_of(one_in) || !middle.contains(at)
    };
    for at in (0..RECORD_SIZE).filter(is_changed) {
        let old = record[at];
        record[at] = match rng.below(3) {
            0 => old ^ (1 << rng.below(8)),
            1 => old.wrapping_add(rng.pick(&[1, 255])),
            _ => old ^ rng.between(1, 255) as u8,
        };
        let is_sound = judge(subject, &record, &calls)
            .map_err(|what| Mismatch(format!("byte {at} of seed {seed}: {what}")))?;
        record[at] = old;
        tally.add(is_sound);
    }
    Ok(tally)
}

/// Damages records where it is likely to be overlooked.
pub fn likely(subject: &dyn Calls, seed: u64, books: usize, each: usize) -> Trial<Tally> {
    let mut rng = Rng::new(seed);
    let mut tally = Tally::default();
    for _ in 0..books {
        let book = arbitrary::book(&mut rng, 30);
        let calls = one_of_each(&mut rng, &book);
        let record = oracle::record::record_of(&book);
        for _ in 0..each {
            let mut damaged = record.clone();
            arbitrary::damage(&mut rng, &mut damaged);
            tally.add(judge(subject, &damaged, &calls)?);
        }
    }
    Ok(tally)
}

/// Parts of one sound record in another one: each half is right by itself.
pub fn mixed_up(subject: &dyn Calls, seed: u64, count: usize) -> Trial<Tally> {
    let mut rng = Rng::new(seed);
    let mut tally = Tally::default();
    let borders = [
        0,
        KINDS_AT,
        COUNTS_AT,
        INTERVALS_AT,
        ENTRIES_AT,
        RECORD_SIZE,
    ];
    for _ in 0..count {
        // Cards with few tasks are often like each other, so that a part of one may do for another.
        let most_calls = rng.pick(&[0, 1, 20]);
        let book = arbitrary::book(&mut rng, most_calls);
        let mut record = oracle::record::record_of(&book);
        let other = oracle::record::record_of(&arbitrary::book(&mut rng, 20));
        let first = rng.below(borders.len() - 1);
        let start = borders[first];
        let end = rng.pick(&borders[first + 1..]);
        record[start..end].copy_from_slice(&other[start..end]);
        let calls = one_of_each(&mut rng, &book);
        tally.add(judge(subject, &record, &calls)?);
    }
    Ok(tally)
}

/// Records of every wrong length near the right one, and far from it.
pub fn lengths(subject: &dyn Calls, seed: u64) -> Trial<()> {
    let mut rng = Rng::new(seed);
    let book = arbitrary::book(&mut rng, 30);
    let record = oracle::record::record_of(&book);
    let calls = one_of_each(&mut rng, &book);
    let near = RECORD_SIZE - 20..RECORD_SIZE + 20;
    let far = [0, 1, 2, 3, 4, 131, 132, ENTRIES_AT, 2 * RECORD_SIZE, 65_536];
    for length in near.chain(far).filter(|&length| length != RECORD_SIZE) {
        let mut bytes = record.clone();
        bytes.resize(length, 0);
        refuses(subject, &bytes, &calls, Refusal::RecordLength.number())?;
    }
    Ok(())
}

/// Random bytes, some of them behind a head that is in its limits.
pub fn random_bytes(subject: &dyn Calls, seed: u64, count: usize) -> Trial<Tally> {
    let mut rng = Rng::new(seed);
    let mut tally = Tally::default();
    for _ in 0..count {
        let book = arbitrary::book(&mut rng, 3);
        let mut bytes: Vec<u8> = (0..RECORD_SIZE).map(|_| rng.byte()).collect();
        let sound = oracle::record::record_of(&book);
        let kept = rng.pick(&[0, KINDS_AT, COUNTS_AT, INTERVALS_AT, ENTRIES_AT]);
        bytes[..kept].copy_from_slice(&sound[..kept]);
        if rng.percent(30) {
            // All the same byte: zeros are no record either.
            let byte = rng.pick(&[0, 0, 1, 255]);
            bytes[kept..].fill(byte);
        }
        let calls = one_of_each(&mut rng, &book);
        tally.add(judge(subject, &bytes, &calls)?);
    }
    Ok(tally)
}

impl Tally {
    /// Counts one more record.
    fn add(&mut self, is_sound: bool) {
        if is_sound {
            self.sound += 1;
        } else {
            self.unsound += 1;
        }
    }
}
