//! How broken up small cards are, worked out by hand, and read from their pictures.

use std::collections::BTreeSet;

use card::{Card, Device, Fragmentation, Kind, Position, Task};

/// A card of so many rows on which tasks of one block are held: column, bottom and top.
fn card(rows: u16, kinds: &str, held: &[(u8, i16, i16)]) -> Card {
    let mut card = Card::new(&Device::from_text(rows, kinds).expect("a device"));
    for (number, &(column, bottom, top)) in (1..).zip(held) {
        let kind = card.device().kind(column).expect("a column");
        let task = Task::of(kind, top - bottom);
        let placed = card.place(&task, number, Position::new(column, bottom));
        assert_eq!(placed, Ok(()), "{column}: {bottom} up to {top}");
    }
    card
}

/// Asks twice: the record stays as it was, and so does the answer.
fn fragmentation(card: &Card) -> Fragmentation {
    let before = card.clone();
    let found = card.fragmentation().expect("a card is sound");
    assert_eq!(card.fragmentation(), Ok(found));
    assert_eq!(*card, before);
    found
}

/// Sets, free cells and degree of such a card.
fn of(rows: u16, kinds: &str, held: &[(u8, i16, i16)]) -> (u32, u32, u32) {
    let found = fragmentation(&card(rows, kinds, held));
    (found.sets, found.free_cells, found.degree)
}

#[test]
fn no_cell_or_one_cell_is_free() {
    assert_eq!(of(5, "C", &[(0, 0, 10)]), (0, 0, 0));
    assert_eq!(of(5, "C", &[(0, 0, 4), (0, 6, 10)]), (1, 1, 0));
    // Two rows are too low for a cell of memory.
    assert_eq!(of(2, "BD", &[]), (0, 0, 0));
    assert_eq!(of(3, "B", &[]), (1, 1, 0));
}

#[test]
fn cells_of_one_column() {
    assert_eq!(of(5, "C", &[]), (1, 5, 0));
    assert_eq!(of(5, "C", &[(0, 4, 6)]), (2, 4, 3_333));
    // No two of three cells touch: the whole.
    assert_eq!(of(5, "C", &[(0, 2, 4), (0, 6, 8)]), (3, 3, 10_000));
    // Cells of memory are 5 half rows high each.
    assert_eq!(of(10, "B", &[(0, 5, 10)]), (2, 3, 5_000));
}

#[test]
fn cells_of_columns_side_by_side() {
    // 4–10 and 0–4 only meet at an end.
    assert_eq!(of(5, "CC", &[(0, 0, 4), (1, 4, 10)]), (2, 5, 2_500));
    assert_eq!(of(5, "CC", &[(0, 0, 4), (1, 6, 10)]), (1, 6, 0));
    // C 4–6 has half row 4 in common with B 0–5, and half row 5 with B 5–10.
    let logic = [(0, 0, 4), (0, 6, 10)];
    for memory in [(1, 0, 5), (1, 5, 10)] {
        assert_eq!(of(5, "CB", &[logic[0], logic[1], memory]), (1, 2, 0));
    }
    // C 6–8 is beside the upper one alone.
    let logic = [(0, 0, 6), (0, 8, 10)];
    assert_eq!(of(5, "CB", &[logic[0], logic[1], (1, 5, 10)]).0, 2);
    assert_eq!(of(5, "CB", &[logic[0], logic[1], (1, 0, 5)]).0, 1);
}

#[test]
fn columns_two_apart_do_not_touch() {
    assert_eq!(of(5, "CCC", &[(1, 0, 10)]), (2, 10, 1_111));
    // Nor do they where the column between them has no cell at all.
    assert_eq!(of(2, "CBC", &[]), (2, 4, 3_333));
    // A way around: 0–2 of the middle column is free.
    assert_eq!(of(5, "CCC", &[(1, 2, 10)]), (1, 11, 0));
}

#[test]
fn a_ring_is_joined_once() {
    assert_eq!(of(3, "CCC", &[(1, 2, 4)]), (1, 8, 0));
    // A free cell inside a ring of held ones, in a ring of free ones.
    let ring = [(1, 2, 8), (3, 2, 8), (2, 2, 4), (2, 6, 8)];
    assert_eq!(of(5, "CCCCC", &ring), (2, 17, 625));
}

/// A task of 32 cells of logic in one column, one cell apart.
fn comb() -> Task {
    let tooth = |index: i16| (4 * index, 4 * index + 2);
    let teeth = (0..32).map(tooth);
    let task = teeth.fold(Task::builder(), |task, (bottom, top)| {
        task.block(0, Kind::C, bottom, top)
    });
    task.build().expect("32 blocks")
}

#[test]
fn sixty_four_combs_on_the_largest_card() {
    let mut card = Card::new(&Device::from_text(128, &"C".repeat(64)).expect("a device"));
    // Two in each of 32 columns, by turns one cell higher, so that no two free cells touch there.
    let places = (0..32).flat_map(|column| [0, 128].map(|half| (column, half)));
    for (number, (column, half)) in (1..).zip(places) {
        let bottom = half + 2 * i16::from(column % 2);
        let placed = card.place(&comb(), number, Position::new(column, bottom));
        assert_eq!(placed, Ok(()), "column {column}");
    }
    // 64 sets in each column but the last, which touches the 32 columns that are all free.
    let wanted = Fragmentation {
        sets: 31 * 64 + 1,
        free_cells: 32 * 64 + 32 * 128,
        degree: 3_229,
    };
    assert_eq!(fragmentation(&card), wanted);
}

/// How many sets the free half rows of a picture make, each joined to its neighbours on all four sides.
fn sets_drawn(picture: &str) -> usize {
    let lines = picture.lines().skip(1).filter(|line| line.starts_with(' '));
    let symbols = lines.map(|line| line.chars().skip(10).step_by(2).collect());
    let lines: Vec<Vec<char>> = symbols.collect();
    let mut free = BTreeSet::new();
    for (line, symbols) in lines.iter().enumerate() {
        let columns = (0..symbols.len()).filter(|&column| symbols[column] == '.');
        free.extend(columns.map(|column| (line, column)));
    }
    let mut sets = 0;
    while let Some(first) = free.pop_first() {
        sets += 1;
        flood(&mut free, first);
    }
    sets
}

/// Takes out all that hangs together with a half row.
fn flood(free: &mut BTreeSet<(usize, usize)>, first: (usize, usize)) {
    let mut open = vec![first];
    while let Some((line, column)) = open.pop() {
        let below = [(line + 1, column), (line, column + 1)];
        let above = [
            (line.wrapping_sub(1), column),
            (line, column.wrapping_sub(1)),
        ];
        let beside = below.into_iter().chain(above);
        open.extend(beside.filter(|half_row| free.remove(half_row)));
    }
}

/// Half rows side by side are free together exactly where their cells touch, so the picture shows the sets.
#[test]
fn the_picture_shows_the_sets() {
    let cards = [
        card(5, "CCB", &[(0, 0, 4), (1, 2, 6), (2, 5, 10)]),
        card(7, "BCDCB", &[(1, 0, 6), (3, 4, 14), (2, 0, 5)]),
        card(2, "CBCC", &[(2, 0, 2)]),
        card(9, "CDC", &[(1, 5, 10), (0, 4, 10), (2, 8, 10), (2, 14, 16)]),
    ];
    let drawn = cards.each_ref().map(|card| sets_drawn(&card.to_string()));
    assert_eq!(drawn, [2, 2, 2, 3]);
    for (card, drawn) in cards.iter().zip(drawn) {
        assert_eq!(fragmentation(card).sets as usize, drawn, "{card}");
    }
}

#[test]
fn shown_in_words() {
    let shown = |sets, free_cells, degree| {
        let found = Fragmentation {
            sets,
            free_cells,
            degree,
        };
        found.to_string()
    };
    assert_eq!(shown(3, 12, 1_818), "3 sets, 12 free cells, 18.18 %");
    assert_eq!(shown(1, 1, 0), "1 set, 1 free cell, 0.00 %");
    assert_eq!(shown(0, 0, 0), "0 sets, 0 free cells, 0.00 %");
    assert_eq!(shown(2, 2, 10_000), "2 sets, 2 free cells, 100.00 %");
    assert_eq!(shown(2, 1_000, 5), "2 sets, 1000 free cells, 0.05 %");
}
