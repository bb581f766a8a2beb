//! Damaged records are not sound, or are the record of another book.

use oracle::arbitrary;
use oracle::layout::*;
use oracle::record::record_of;
use oracle::rng::Rng;
use oracle::sound::read;
use oracle::Book;

/// Judges a damaged record of the book; answers whether it is sound.
fn judge(book: &Book, damaged: &[u8]) -> bool {
    match read(damaged) {
        Err(_) => false,
        Ok(other) => {
            assert!(&other != book, "damage that is not seen");
            assert!(record_of(&other) == damaged, "sound, yet no book's record");
            true
        }
    }
}

#[test]
fn one_byte_anywhere() {
    let mut rng = Rng::new(10);
    let mut still_sound = 0;
    for _ in 0..12 {
        let book = arbitrary::book(&mut rng, 60);
        let mut record = record_of(&book);
        for at in 0..RECORD_SIZE {
            let old = record[at];
            record[at] ^= rng.between(1, 255) as u8;
            still_sound += usize::from(judge(&book, &record));
            record[at] = old;
        }
    }
    assert!(still_sound > 0, "a changed task number is another book");
}

#[test]
fn every_value_of_the_bytes_in_use() {
    let mut rng = Rng::new(11);
    for _ in 0..6 {
        let book = arbitrary::book(&mut rng, 12);
        let mut record = record_of(&book);
        let head = (0..KINDS_AT).chain([KINDS_AT, KINDS_AT + 1, COUNTS_AT, COUNTS_AT + 1]);
        let intervals = column_part(0).take(12);
        let entry = entry_part(0).take(30);
        for at in head.chain(intervals).chain(entry) {
            let old = record[at];
            for value in (0..=255).filter(|&value| value != old) {
                record[at] = value;
                judge(&book, &record);
            }
            record[at] = old;
        }
    }
}

#[test]
fn likely_damage() {
    let mut rng = Rng::new(12);
    let (mut sound, mut unsound) = (0, 0);
    for _ in 0..400 {
        let book = arbitrary::book(&mut rng, 30);
        let record = record_of(&book);
        for _ in 0..50 {
            let mut damaged = record.clone();
            arbitrary::damage(&mut rng, &mut damaged);
            if damaged == record {
                continue;
            }
            match judge(&book, &damaged) {
                true => sound += 1,
                false => unsound += 1,
            }
        }
    }
    assert!(sound > 20 && unsound > 10_000, "{sound} {unsound}");
}

#[test]
fn calls_on_damaged_records() {
    let mut rng = Rng::new(13);
    let mut sound = 0;
    for _ in 0..4000 {
        let book = arbitrary::book(&mut rng, 10);
        let mut record = record_of(&book);
        arbitrary::damage(&mut rng, &mut record);
        let damaged = record.clone();
        let mood = arbitrary::mood(&mut rng);
        let call = arbitrary::call(&mut rng, &book, mood);
        let outcome = call.on_record(&mut record);
        match read(&damaged) {
            Err(_) => {
                assert_eq!(outcome.answer, -2);
                assert!(outcome.output == call.lent_output());
                assert!(record == damaged);
            }
            // A sound record is as good as one that a history led to.
            Ok(mut other) => {
                sound += 1;
                assert_eq!(outcome, call.on_book(&mut other));
                assert!(record == record_of(&other));
            }
        }
    }
    assert!(sound > 50, "{sound}");
}
