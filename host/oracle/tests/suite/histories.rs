//! Random histories: on the record and on the book alike, and back again.

use std::collections::BTreeSet;

use oracle::arbitrary::{self, Mood};
use oracle::calls;
use oracle::history::Call;
use oracle::layout::*;
use oracle::record::record_of;
use oracle::rng::Rng;
use oracle::{Book, Device};

/// A new record of a device.
fn new_record(device: &Device) -> Vec<u8> {
    let mut record = vec![1; RECORD_SIZE];
    let answer = calls::new(&mut record, device.rows(), &device.kind_bytes());
    assert_eq!(answer, 0);
    record
}

/// Runs a history on the record and on the book; gives the answers that came up.
fn run(rng: &mut Rng, device: Device, mood: Mood, calls: usize) -> BTreeSet<i32> {
    let mut record = new_record(&device);
    let mut book = Book::on(device);
    let mut answers = BTreeSet::new();
    for _ in 0..calls {
        let call = arbitrary::call(rng, &book, mood);
        let before = record.clone();
        let on_record = call.on_record(&mut record);
        let on_book = call.on_book(&mut book);
        assert_eq!(on_record, on_book);
        assert!(record == record_of(&book), "{call:?}");
        check_what_stays(&call, on_record.answer, &before, &record);
        if on_record.answer < 0 {
            assert!(on_record.output == call.lent_output());
        }
        answers.insert(on_record.answer.min(1));
    }
    no_cell_is_held_twice(&book);
    answers
}

/// A list, a choose or a refusal changes no byte; a place changes no column in which it has no block.
fn check_what_stays(call: &Call, answer: i32, before: &[u8], after: &[u8]) {
    let changes = matches!(call, Call::Place { .. } | Call::Release { .. });
    if answer < 0 || !changes {
        assert!(before == after);
    }
    let Call::Place { task, column, .. } = call else {
        return;
    };
    for c in 0..64 {
        let covers = |block: &[u8]| *column as usize + usize::from(block[0]) == c;
        if !task.chunks(6).any(covers) {
            assert!(before[column_part(c)] == after[column_part(c)]);
        }
    }
}

fn no_cell_is_held_twice(book: &Book) {
    let mut held = BTreeSet::new();
    for &number in book.running().keys() {
        for cell in book.cells_held_by(number) {
            assert!(held.insert(cell));
        }
    }
    let all: usize = (0..book.device().columns())
        .map(|column| book.device().cells(column))
        .sum();
    assert_eq!(book.free_cells().len() + held.len(), all);
}

#[test]
fn record_and_book_agree() {
    let mut rng = Rng::new(20);
    let mut answers = BTreeSet::new();
    for _ in 0..250 {
        let device = arbitrary::device(&mut rng);
        let mood = arbitrary::mood(&mut rng);
        answers.extend(run(&mut rng, device, mood, 60));
    }
    let expected = [-11, -10, -9, -7, -6, -5, -4, 0, 1];
    assert!(expected.iter().all(|answer| answers.contains(answer)));
}

#[test]
fn long_histories_on_full_cards() {
    let mut rng = Rng::new(21);
    let mut answers = BTreeSet::new();
    for blocks in [1, 2, 4] {
        let kinds: Vec<u8> = (0..24).map(|_| rng.pick(&[0, 0, 1, 2])).collect();
        let device = Device::new(64, &kinds).unwrap();
        let mood = Mood {
            place: 75,
            ask: 10,
            odd: 4,
            blocks,
        };
        answers.extend(run(&mut rng, device, mood, 800));
    }
    assert!(answers.contains(&-8), "64 tasks ran");
}

#[test]
fn release_after_place_gives_the_old_bytes() {
    let mut rng = Rng::new(22);
    let mut placed = 0;
    for _ in 0..600 {
        let book = arbitrary::book(&mut rng, 40);
        let old = record_of(&book);
        let mut record = old.clone();
        let mood = Mood {
            place: 100,
            ask: 0,
            odd: 5,
            blocks: 8,
        };
        let call = arbitrary::call(&mut rng, &book, mood);
        let Call::Place { number, .. } = call else {
            panic!("the mood asks for place")
        };
        if call.on_record(&mut record).answer == 0 {
            placed += 1;
            assert!(record != old);
            assert_eq!(calls::release(&mut record, number), 0);
        }
        assert!(record == old);
    }
    assert!(placed > 200, "{placed}");
}

#[test]
fn histories_that_end_alike_end_with_equal_records() {
    let mut rng = Rng::new(23);
    for _ in 0..100 {
        let mut book = arbitrary::book(&mut rng, 30);
        let old = book.clone();
        let mut record = record_of(&book);
        let mood = arbitrary::mood(&mut rng);
        for _ in 0..20 {
            let call = arbitrary::call(&mut rng, &book, mood);
            call.on_book(&mut book);
            call.on_record(&mut record);
        }
        // A way back: release what came or moved, place what went.
        for &number in book.running().keys() {
            assert_eq!(calls::release(&mut record, u32::from(number)), 0);
        }
        for (&number, entry) in old.running().iter().rev() {
            let (task, at) = (entry.task.bytes(), entry.position);
            let number = u32::from(number);
            let answer = calls::place(&mut record, task, number, at.column, at.bottom);
            assert_eq!(answer, 0);
        }
        assert!(record == record_of(&old));
    }
}
