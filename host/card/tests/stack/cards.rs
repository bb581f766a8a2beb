//! The heaviest cards, and how deep each call writes on them.

use card::bytes::{choose, fragmentation, interval_count, list, new, place, release};
use card::{Card, Device, Kind, Task};
use card::{LIST_ROOM, MAX_BLOCKS, MAX_COLUMNS, MAX_ROWS, MAX_RUNNING, RECORD_SIZE};
use oracle::arbitrary::damage;
use oracle::rng::Rng;

use crate::paint::depth;

const DAMAGED: usize = 100;

/// Six columns of logic in each eight, one of memory and one of multipliers.
fn kinds() -> Vec<u8> {
    [0, 0, 0, 1, 0, 0, 0, 2].repeat(MAX_COLUMNS / 8)
}

/// A block's bytes.
fn block(column: usize, kind: u8, bottom: usize, top: usize) -> Vec<u8> {
    let mut bytes = vec![column as u8, kind];
    bytes.extend((bottom as i16).to_le_bytes());
    bytes.extend((top as i16).to_le_bytes());
    bytes
}

/// As many blocks of one cell as a task may have, one cell apart, in one column of logic.
fn comb() -> Vec<u8> {
    let tooth = |index| block(0, 0, 4 * index, 4 * index + 2);
    (0..MAX_BLOCKS).flat_map(tooth).collect()
}

/// As many blocks of ten half rows as a task may have, one in each column.
fn wide() -> Vec<u8> {
    let kinds = kinds();
    let part = |column: usize| block(column, kinds[column], 0, 10);
    (0..MAX_BLOCKS).flat_map(part).collect()
}

/// A card without tasks.
fn empty() -> Vec<u8> {
    let mut record = vec![0; RECORD_SIZE];
    assert_eq!(new(&mut record, MAX_ROWS.into(), &kinds()), 0);
    record
}

/// A card with so many combs, two in each column of logic.
fn combs(tasks: usize) -> Vec<u8> {
    let mut record = empty();
    let kinds = kinds();
    let logic = (0..MAX_COLUMNS).filter(|&column| kinds[column] == 0);
    let places = logic.flat_map(|column| [(column, 0), (column, 128)]);
    for (index, (column, bottom)) in places.take(tasks).enumerate() {
        let number = 1_000 * (index as u32 + 1);
        let answer = place(&mut record, &comb(), number, column as u32, bottom);
        assert_eq!(answer, 0);
    }
    record
}

/// A card with a task of one block over all cells of each column.
fn full() -> Vec<u8> {
    let mut record = empty();
    for (column, &kind) in kinds().iter().enumerate() {
        let whole = block(0, kind, 0, if kind == 0 { 256 } else { 255 });
        let number = 1_000 * (column as u32 + 1);
        assert_eq!(place(&mut record, &whole, number, column as u32, 0), 0);
    }
    record
}

/// Heavy cards, a record that is too short, and damaged ones.
fn cards() -> Vec<Vec<u8>> {
    let heavy = combs(MAX_RUNNING);
    let mut rng = Rng::new(31);
    let hurt = |_| {
        let mut record = heavy.clone();
        damage(&mut rng, &mut record);
        record
    };
    let mut cards: Vec<_> = (0..DAMAGED).map(hurt).collect();
    cards.extend([empty(), combs(MAX_RUNNING - 1), full(), heavy]);
    cards.push(vec![0; 10]);
    cards
}

/// Long tasks, a short one, one that is not well-formed, and none.
fn tasks() -> [Vec<u8>; 5] {
    let short = block(0, 0, 0, 2);
    [comb(), wide(), short.clone(), short.repeat(2), Vec::new()]
}

/// How deep each call writes for a card and a task, in the order of the exported calls.
fn depths(card: &[u8], task: &[u8]) -> [usize; 7] {
    let kinds = kinds();
    let mut record = card.to_vec();
    let mut output = vec![0; LIST_ROOM];
    let listed = depth(|| {
        list(card, task, &mut output);
    });
    let mut best = 0;
    let chosen = depth(|| best = choose(card, task).max(0));
    let (column, bottom) = (best as u32 / 1_024, best % 1_024);
    let placed = depth(|| {
        place(&mut record, task, 500, column, bottom);
    });
    // The first task is the one that has all others move.
    let released = depth(|| {
        release(&mut record, 1_000);
    });
    let counted = depth(|| {
        interval_count(card, 0);
    });
    let (mut free, mut degree) = (0, 0);
    let broken_up = depth(|| {
        fragmentation(card, &mut free, &mut degree);
    });
    let made = depth(|| {
        new(&mut record, MAX_ROWS.into(), &kinds);
    });
    [made, placed, released, listed, chosen, counted, broken_up]
}

/// How deep each exported call writes at most.
pub fn deepest() -> [usize; 7] {
    let mut deepest = [0; 7];
    for card in cards() {
        for task in tasks() {
            let depths = depths(&card, &task);
            deepest = std::array::from_fn(|call| deepest[call].max(depths[call]));
        }
    }
    deepest
}

/// Every call through the types of the crate; the number of positions that it saw.
pub fn through_rust() -> Option<usize> {
    let device = Device::new(MAX_ROWS, &[Kind::C, Kind::B]).ok()?;
    let mut card = Card::new(&device);
    let task = Task::builder().block(0, Kind::C, 0, 2).build().ok()?;
    let best = card.choose(&task).ok()?;
    card.place(&task, 7, best).ok()?;
    let mut output = vec![0; LIST_ROOM];
    let ranges = card.list(&task, &mut output).ok()?;
    let seen = ranges.flat_map(|range| range.positions()).count();
    card.release(7).ok()?;
    let card = Card::open(card.into_bytes()).ok()?;
    card.fragmentation().ok()?;
    Some(seen + card.intervals(1).ok()?.count())
}
