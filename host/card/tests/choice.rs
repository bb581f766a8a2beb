//! Choices on small cards, worked out by hand: the least n / s, with the heights of s added up once for each interval.

use card::{Card, Device, Kind, Position, Refusal, Task, LIST_ROOM};

/// A card of 5 rows on which cells of logic are held: column and bottom.
fn card(kinds: &str, held: &[(u8, i16)]) -> Card {
    let mut card = Card::new(&Device::from_text(5, kinds).expect("a device"));
    for (number, &(column, bottom)) in (1..).zip(held) {
        let placed = card.place(&Task::of(Kind::C, 2), number, Position::new(column, bottom));
        assert_eq!(placed, Ok(()), "{column}: {bottom}");
    }
    card
}

/// A task of two blocks of one cell of logic, the second in a column and at a bottom.
fn two_cells(column: u8, bottom: i16) -> Task {
    let task = Task::builder()
        .block(0, Kind::C, 0, 2)
        .block(column, Kind::C, bottom, bottom + 2);
    task.build().expect("two blocks")
}

/// The card with a task at a position.
fn with(card: &Card, task: &Task, at: Position) -> Card {
    let mut card = card.clone();
    assert_eq!(card.place(task, 100, at), Ok(()));
    card
}

/// Every position of a task, as list gives them.
fn positions(card: &Card, task: &Task) -> Vec<Position> {
    let mut output = [0; LIST_ROOM];
    let ranges = card.list(task, &mut output).expect("a position");
    ranges.flat_map(|range| range.positions()).collect()
}

#[test]
fn an_interval_with_two_blocks_counts_once() {
    // Free are 0–2 and 4–10.
    let card = card("C", &[(0, 2)]);
    let comb = two_cells(0, 4);
    let (low, high) = (Position::new(0, 0), Position::new(0, 4));
    assert_eq!(positions(&card, &comb), [low, high]);
    // Low, n is 1 and s is 2 + 6. High, n is 1 and s is 6: twice that would make it the choice.
    assert_eq!(card.choose(&comb), Ok(low));
    let tall = Task::of(Kind::C, 4);
    let above = Position::new(0, 6);
    assert_eq!(positions(&with(&card, &comb, low), &tall), [above]);
    let poor = with(&card, &comb, high);
    assert_eq!(poor.choose(&tall), Err(Refusal::NoPosition));
}

#[test]
fn intervals_of_two_columns_are_two() {
    // Free are 6–10 of the first column, and all of the two others.
    let card = card("CCC", &[(0, 0), (0, 2), (0, 4)]);
    // In column 1 n is 2 and s is 10 + 10. The best of column 0, at bottom 8, has n 2 and s 4 + 10.
    assert_eq!(card.choose(&two_cells(1, 0)), Ok(Position::new(1, 0)));
}
