//! A card drawn, and who holds a cell: compared with the oracle's book, half row by half row.

use card::{Card, Device, Kind, Position, Task, MAX_RUNNING};
use oracle::arbitrary;
use oracle::record::record_of;
use oracle::rng::Rng;
use oracle::Book;

/// The symbols in the order of the running tasks.
const SYMBOLS: &str = "abcdefghijklmnopqrstuvwxyzABCDEFGHIJKLMNOPQRSTUVWXYZ0123456789+*";

/// The place, among the running tasks of the book, of the one that holds a half row.
fn holder(book: &Book, column: usize, half_row: usize) -> Option<usize> {
    let height = book.device().kind(column)?.height() as usize;
    let cell = (column, half_row / height);
    let mut numbers = book.running().keys();
    numbers.position(|&number| book.cells_held_by(number).contains(&cell))
}

/// The symbol that the book wants for a half row.
fn symbol(book: &Book, column: usize, half_row: usize) -> char {
    match holder(book, column, half_row) {
        Some(place) => SYMBOLS.chars().nth(place).expect("at most 64 run"),
        None if (half_row as i64) < book.device().top(column) => '.',
        None => '-',
    }
}

/// The picture that the book wants.
fn picture(book: &Book) -> String {
    let device = book.device();
    let mut lines = vec!["half row ".to_string()];
    for kind in device.kinds() {
        lines[0] += &format!(" {}", char::from(kind.letter()));
    }
    for half_row in (0..device.half_rows() as usize).rev() {
        let mut line = format!("{half_row:>8} ");
        for column in 0..device.columns() {
            line += &format!(" {}", symbol(book, column, half_row));
        }
        lines.push(line);
    }
    for ((number, entry), symbol) in book.running().iter().zip(SYMBOLS.chars()) {
        let (column, bottom) = (entry.position.column, entry.position.bottom);
        lines.push(format!(
            "{symbol}: number {number} at column {column}, bottom {bottom}"
        ));
    }
    lines.push(".: free, -: no cell".to_string());
    lines.join("\n")
}

/// Who holds each half row is the same, off the device too; answers how many half rows are held.
fn compare_holders(card: &Card, book: &Book) -> usize {
    let mut held = 0;
    for column in (0..=card.device().columns()).chain([255]) {
        for half_row in (-1..=card.device().half_rows() as i16).chain([i16::MIN, i16::MAX]) {
            let wanted = usize::try_from(half_row).ok();
            let wanted = wanted.and_then(|half_row| holder(book, column.into(), half_row));
            let wanted = wanted.and_then(|place| book.running().keys().nth(place));
            let found = card.running_at(column, half_row);
            assert_eq!(found.map(|running| running.number).as_ref(), wanted);
            held += usize::from(found.is_some());
        }
    }
    held
}

#[test]
fn pictures_and_holders_are_the_books() {
    let mut rng = Rng::new(140);
    let (mut held, mut running) = (0, 0);
    for _ in 0..60 {
        let book = arbitrary::book(&mut rng, 100);
        let card = Card::open(record_of(&book).into_boxed_slice()).expect("a sound record");
        assert_eq!(card.to_string(), picture(&book));
        held += compare_holders(&card, &book);
        running += book.running().len();
        for task in card.running() {
            assert_eq!(card.running_task(task.number), Some(task));
            let next = task.number.wrapping_add(1);
            let runs = book.running().contains_key(&next);
            assert_eq!(card.running_task(next).is_some(), runs);
        }
        assert_eq!(card.running_task(0), None);
    }
    assert!(held > 1000 && running > 200, "{held} {running}");
}

#[test]
fn sixty_four_tasks_have_sixty_four_symbols() {
    let mut card = Card::new(&Device::from_text(128, "CB").expect("a device"));
    let cell = Task::of(Kind::C, 2);
    for place in 0..MAX_RUNNING as u16 {
        let position = Position::new(0, 4 * place as i16);
        // The highest numbers, the last of them placed first.
        card.place(&cell, 65_535 - place, position)
            .expect("it fits");
    }
    let text = card.to_string();
    let lines: Vec<&str> = text.lines().collect();
    assert_eq!(lines.len(), 1 + 256 + MAX_RUNNING + 1);
    assert_eq!(
        lines[..4],
        [
            "half row  C B",
            "     255  . -",
            "     254  . .",
            "     253  a ."
        ]
    );
    assert_eq!(lines[256], "       0  * .");
    assert_eq!(lines[257], "a: number 65472 at column 0, bottom 252");
    assert_eq!(lines[320], "*: number 65535 at column 0, bottom 0");
    let column = lines[1..257]
        .iter()
        .rev()
        .filter_map(|line| line.chars().nth(10));
    let drawn: String = column.step_by(4).collect();
    assert_eq!(drawn, SYMBOLS.chars().rev().collect::<String>());
}

#[test]
fn a_column_without_a_cell() {
    let card = Card::new(&Device::from_text(2, "DC").expect("a device"));
    let lines = [
        "half row  D C",
        "       3  - .",
        "       2  - .",
        "       1  - .",
        "       0  - .",
    ];
    let wanted = [&lines[..], &[".: free, -: no cell"]].concat();
    assert_eq!(card.to_string(), wanted.join("\n"));
}
