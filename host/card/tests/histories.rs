//! A random history through the types, call by call beside the oracle's book.

use card::{outcome, Card, Device, Interval, Kind, Position, Refusal, Running, Task};
use oracle::arbitrary::{self, Mood};
use oracle::history::Call;
use oracle::record::record_of;
use oracle::rng::Rng;
use oracle::Book;

/// Makes a call on the card and compares what it gives; answers false where the types can't say its arguments.
fn same_call(card: &mut Card, book: &Book, call: &Call) -> Option<bool> {
    let wanted = call.on_book(&mut book.clone());
    let answer = outcome(wanted.answer);
    match call {
        Call::Release { number } => {
            let given = card.release(u16::try_from(*number).ok()?);
            Some(given == answer.map(|_| ()))
        }
        Call::Choose { task } => {
            let given = Task::from_bytes(task).and_then(|task| card.choose(&task));
            let position = |answer| Position {
                column: (answer / 1024) as u8,
                bottom: (answer % 1024) as i16,
            };
            Some(given == answer.map(position))
        }
        Call::List { task, .. } => {
            let mut output = call.lent_output();
            let given = Task::from_bytes(task)
                .and_then(|task| Ok(card.list(&task, &mut output)?.len() as u32));
            Some(given == answer && output == wanted.output)
        }
        Call::Place {
            task,
            number,
            column,
            bottom,
        } => {
            let number = u16::try_from(*number).ok()?;
            let position = Position {
                column: u8::try_from(*column).ok()?,
                bottom: i16::try_from(*bottom).ok()?,
            };
            let given = Task::from_bytes(task).and_then(|task| card.place(&task, number, position));
            Some(given == answer.map(|_| ()))
        }
    }
}

/// Everything that can be read from the card is the book's.
fn assert_same(card: &Card, book: &Book) {
    assert_eq!(card.as_bytes(), record_of(book));
    let numbers = card.running().map(|running| running.number);
    assert!(numbers.eq(book.running().keys().copied()));
    for (running, entry) in card.running().zip(book.running().values()) {
        let Running { position, task, .. } = running;
        assert_eq!(task.as_bytes(), entry.task.bytes());
        assert_eq!(u32::from(position.column), entry.position.column);
        assert_eq!(i32::from(position.bottom), entry.position.bottom);
    }
    for column in 0..card.device().columns() {
        let given = card.intervals(column).expect("a column");
        let wanted = book.intervals(column.into()).into_iter();
        let wanted = wanted.map(|interval| Interval {
            bottom: interval.bottom as i16,
            top: interval.top as i16,
        });
        assert!(given.eq(wanted), "column {column}");
    }
    let given = card.fragmentation().expect("a sound card");
    let given = [given.sets, given.free_cells, given.degree];
    let wanted = book.fragmentation();
    let wanted = [wanted.sets, wanted.free, wanted.degree];
    assert_eq!(given.map(i64::from), wanted);
}

/// The positions of a task's listing are those of the book, in order.
fn assert_same_positions(card: &Card, book: &Book, task: &oracle::Task) {
    let mut output = [0; card::LIST_ROOM];
    let typed = Task::from_bytes(task.bytes()).expect("well-formed");
    let listed = card.list(&typed, &mut output);
    let given: Vec<(u32, i32)> = match listed {
        Ok(ranges) => ranges
            .flat_map(|range| range.positions())
            .map(|at| (at.column.into(), at.bottom.into()))
            .collect(),
        Err(refusal) => {
            assert_eq!(refusal, Refusal::NoPosition);
            Vec::new()
        }
    };
    let ranges = book.ranges(task).into_iter();
    let wanted: Vec<(u32, i32)> = ranges
        .flat_map(|range| range.positions())
        .map(|at| (at.column, at.bottom))
        .collect();
    assert_eq!(given, wanted);
}

/// Runs a history of so many calls on a device of these kinds; answers how many changed the card.
fn run(seed: u64, rows: u16, kinds: &[Kind], calls: usize) -> usize {
    let mood = Mood {
        place: 60,
        ask: 40,
        odd: 8,
        blocks: 4,
    };
    let mut rng = Rng::new(seed);
    let mut card = Card::new(&Device::new(rows, kinds).expect("a device"));
    let bytes: Vec<u8> = kinds.iter().map(|kind| kind.byte()).collect();
    let mut book = Book::new(rows.into(), &bytes).expect("a device");
    let mut changes = 0;
    for index in 0..calls {
        let call = arbitrary::call(&mut rng, &book, mood);
        let Some(is_same) = same_call(&mut card, &book, &call) else {
            continue;
        };
        assert!(is_same, "call {index} of seed {seed}: {call:?}");
        let before = book.clone();
        call.on_book(&mut book);
        changes += usize::from(before != book);
        assert_same(&card, &book);
        let task = arbitrary::task(&mut rng, book.device(), 3);
        assert_same_positions(&card, &book, &task);
    }
    changes
}

#[test]
fn histories_are_the_books() {
    let small = run(1, 12, &[Kind::C, Kind::B, Kind::C], 3000);
    assert!(small > 500, "{small}");
    let kinds = [Kind::C, Kind::C, Kind::B, Kind::C, Kind::D].repeat(4);
    let large = run(2, 64, &kinds, 500);
    assert!(large > 100, "{large}");
}
