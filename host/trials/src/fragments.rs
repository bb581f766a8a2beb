//! Cards that are broken up: labyrinths of held cells, and cards at the limits of sets and of free cells.
//!
//! A card is given by the cells that are held on it. Each run of them is a block, and 32 blocks are a task,
//! whatever columns they stand in: so 64 tasks hold any pattern of up to 2,048 runs.

use calls::Calls;
use oracle::arbitrary;
use oracle::rng::Rng;
use oracle::task::{bytes_of, Block, MAX_BLOCKS};
use oracle::{Book, Device};

use crate::histories::{largest_device, small_device};
use crate::pair::Pair;
use crate::shapes::block;
use crate::{ensure, Mismatch, Trial};

/// Held cells, one above the other.
struct Run {
    column: usize,
    first: usize,
    cells: usize,
}

/// The runs of held cells, by column and upwards.
fn runs(device: &Device, mut is_held: impl FnMut(usize, usize) -> bool) -> Vec<Run> {
    let mut runs: Vec<Run> = Vec::new();
    let cells = |column| (0..device.cells(column)).map(move |cell| (column, cell));
    for (column, cell) in (0..device.columns()).flat_map(cells) {
        if !is_held(column, cell) {
            continue;
        }
        match runs.last_mut() {
            Some(run) if run.column == column && run.first + run.cells == cell => run.cells += 1,
            _ => runs.push(Run {
                column,
                first: cell,
                cells: 1,
            }),
        }
    }
    runs
}

/// The book of a device on which these cells are held and no others; none where that takes too many tasks.
pub fn book_of(device: Device, is_held: impl FnMut(usize, usize) -> bool) -> Option<Book> {
    let runs = runs(&device, is_held);
    let kinds = device.kinds().to_vec();
    let bottom = |run: &Run| kinds[run.column].height() as i16 * run.first as i16;
    let mut book = Book::on(device);
    for (number, part) in (1..).zip(runs.chunks(MAX_BLOCKS)) {
        let foot = &part[0];
        let moved = |run: &Run| -> Block {
            let column = (run.column - foot.column) as u8;
            let height = bottom(run) - bottom(foot);
            block(column, kinds[run.column], height, run.cells as i16)
        };
        let task = bytes_of(&part.iter().map(moved).collect::<Vec<_>>());
        let (column, bottom) = (foot.column as u32, i32::from(bottom(foot)));
        book.place(&task, number, column, bottom).ok()?;
    }
    Some(book)
}

/// Holds cells of so many cards at random, and builds the stairs; answers the most sets of a card.
pub fn labyrinths(subject: &dyn Calls, seed: u64, count: usize) -> Trial<i64> {
    let mut rng = Rng::new(seed);
    let mut most = 0;
    for index in 0..count {
        let device = match rng.below(4) {
            0 => small_device(&mut rng),
            1 => largest_device(&mut rng),
            _ => arbitrary::device(&mut rng),
        };
        let held = rng.pick(&[10, 30, 40, 50, 60, 90]);
        let Some(book) = book_of(device, |_, _| rng.percent(held)) else {
            continue;
        };
        let found = Pair::on_book(subject, book).fragmentation();
        let found = found.map_err(|what| Mismatch(format!("card {index}: {what}")))?;
        most = most.max(found.sets);
    }
    on_card(subject, &stairs())?;
    Ok(most)
}

/// A card that is worked out by hand: which cells are held, and the sets and free cells that this leaves.
struct Worked {
    name: &'static str,
    rows: u32,
    kinds: Vec<u8>,
    is_held: fn(usize, usize) -> bool,
    sets: i64,
    free: i64,
}

/// The numbers of such a card are those of the implementation and of the oracle; answers the sets.
fn on_card(subject: &dyn Calls, card: &Worked) -> Trial<i64> {
    let device = Device::new(card.rows, &card.kinds).expect("the limits are kept");
    let book = book_of(device, card.is_held);
    let book = book.ok_or_else(|| Mismatch(format!("{}: too many runs", card.name)))?;
    let found = Pair::on_book(subject, book).fragmentation();
    let found = found.map_err(|what| Mismatch(format!("{}: {what}", card.name)))?;
    ensure((found.sets, found.free) == (card.sets, card.free), || {
        format!("{}: worked out wrongly, {found:?}", card.name)
    })?;
    Ok(found.sets)
}

/// 62 bars, the higher the longer, and a free column to which all of them lead.
///
/// Each bar has a lower node than the one below it, so that with every bar the way from the last column's node
/// to its root grows by one. The two uppermost bars have met before, and part again: so at the last one the whole
/// way counts.
fn stairs() -> Worked {
    Worked {
        name: "stairs",
        rows: 128,
        kinds: vec![0; 64],
        // Bar b is cell 127 - 2 × b, from column b on.
        is_held: |column, cell| match (column, 127 - cell) {
            (63, _) | (61, 1) => false,
            (_, below) => below % 2 == 1 || below / 2 > column.min(61),
        },
        sets: 1,
        // Bars of 1, 2, up to 62 columns, and 62 once more, the cell where two of them meet, and the last column.
        free: 62 * 63 / 2 + 62 + 1 + 128,
    }
}

/// The cards at the limits; answers the most sets of one.
pub fn at_the_limits(subject: &dyn Calls) -> Trial<i64> {
    let mut most = 0;
    for card in largest_cards().into_iter().chain(smallest_cards()) {
        most = most.max(on_card(subject, &card)?);
    }
    Ok(most)
}

/// A card of 128 rows and so many columns of logic.
fn largest(
    name: &'static str,
    columns: usize,
    is_held: fn(usize, usize) -> bool,
    (sets, free): (i64, i64),
) -> Worked {
    Worked {
        name,
        rows: 128,
        kinds: vec![0; columns],
        is_held,
        sets,
        free,
    }
}

/// Cards of 128 rows with as many sets, free cells or joins as there can be, or as few.
fn largest_cards() -> Vec<Worked> {
    let mut one_half_row = largest("one half row shared", 64, one_half_row, (26, 26 * 64));
    one_half_row.kinds = [0, 1].repeat(32);
    let every_other = |column: usize, cell: usize| column % 2 == 1 || cell % 2 == 1 && cell < 127;
    let corners = |column, cell| !matches!((column, cell), (0, 0) | (63, 127));
    let snake = |column, cell| match column % 4 {
        1 => cell != 127,
        3 => cell != 0,
        _ => false,
    };
    vec![
        largest("empty", 64, |_, _| false, (1, 64 * 128)),
        largest("full", 64, |_, _| true, (0, 0)),
        largest("one cell", 64, |c, cell| (c, cell) != (63, 127), (1, 1)),
        largest("two corners", 64, corners, (2, 2)),
        largest("chess", 32, |c, cell| (c + cell) % 2 == 1, (2048, 2048)),
        largest("every other", 64, every_other, (2048, 32 * 65)),
        largest("bands", 64, |_, cell| cell % 4 == 3, (32, 64 * 96)),
        largest(
            "bricks",
            64,
            |c, cell| (cell + 2 * c) % 4 == 3,
            (1, 64 * 96),
        ),
        largest("snake", 64, snake, (1, 32 * 129)),
        one_half_row,
    ]
}

/// Of logic and memory by turns: half row 4 of each ten is all that a free cell of the one shares with one of the other.
fn one_half_row(column: usize, cell: usize) -> bool {
    match column % 2 {
        0 => cell % 5 != 2,
        _ => cell % 2 == 1,
    }
}

/// A small card of these kinds.
fn smallest(
    name: &'static str,
    rows: u32,
    kinds: &[u8],
    is_held: fn(usize, usize) -> bool,
    (sets, free): (i64, i64),
) -> Worked {
    Worked {
        name,
        rows,
        kinds: kinds.to_vec(),
        is_held,
        sets,
        free,
    }
}

/// Cards of few cells: low columns without any between others, and cells that only just touch, or do not.
fn smallest_cards() -> Vec<Worked> {
    let nothing = |_, _| false;
    vec![
        smallest("least", 1, &[0], nothing, (1, 1)),
        smallest("no cell", 2, &[1, 2], nothing, (0, 0)),
        smallest("one between", 2, &[0, 1, 0, 2, 0], nothing, (3, 6)),
        smallest("two between", 2, &[0, 1, 2, 0, 1], nothing, (2, 4)),
        smallest("held between", 3, &[0, 0, 0], |c, _| c == 1, (2, 6)),
        smallest("end to end", 2, &[0, 0], |c, cell| c == cell, (2, 2)),
        smallest("ring", 3, &[0, 0, 0], |c, cell| (c, cell) == (1, 1), (1, 8)),
        smallest("memory", 13, &[1, 2], |c, cell| c == cell % 2, (5, 5)),
    ]
}
