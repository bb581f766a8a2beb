//! Random books, for their records, and random damage to a record.

use crate::arbitrary::{call, device, mood};
use crate::book::{Book, MAX_RUNNING};
use crate::device::MAX_COLUMNS;
use crate::layout::*;
use crate::rng::Rng;

/// A random book: a random device after up to so many random calls.
pub fn book(rng: &mut Rng, most_calls: usize) -> Book {
    let mut book = Book::on(device(rng));
    let mut mood = mood(rng);
    mood.ask = 0;
    for _ in 0..rng.below(most_calls + 1) {
        let call = call(rng, &book, mood);
        call.on_book(&mut book);
    }
    book
}

/// Damages one to three bytes of a record, mostly bytes that stand for something.
pub fn damage(rng: &mut Rng, record: &mut [u8]) {
    for _ in 0..rng.pick(&[1, 1, 1, 2, 3]) {
        let at = place_to_damage(rng, record);
        record[at] = match rng.below(3) {
            0 => record[at].wrapping_add(rng.pick(&[1, 255, 2, 254, 5, 251])),
            1 => record[at] ^ (1 << rng.below(8)),
            _ => rng.byte(),
        };
    }
}

/// A byte of the record: in the head, in a used column, in a running entry, or anywhere.
fn place_to_damage(rng: &mut Rng, record: &[u8]) -> usize {
    // Earlier damage may have hit these two, hence both limits.
    let columns = usize::from(record[COLUMNS_AT]).clamp(1, MAX_COLUMNS);
    let running = usize::from(record[RUNNING_AT]).clamp(1, MAX_RUNNING);
    let column = rng.below(columns);
    match rng.below(7) {
        0 => rng.below(KINDS_AT),
        1 => rng.pick(&[KINDS_AT, COUNTS_AT]) + column,
        2 => column_part(column).start + rng.below(16),
        3 => entry_part(rng.below(running)).start + rng.below(BLOCKS_AT + 12),
        4 => entry_part(rng.below(running)).start + rng.below(ENTRY_SIZE),
        // Another number may leave the record sound.
        5 => entry_part(rng.below(running)).start + rng.below(2),
        _ => rng.below(RECORD_SIZE),
    }
}
