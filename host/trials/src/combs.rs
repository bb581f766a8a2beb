//! Combs: tasks with blocks above each other in a column, which lie in one free interval or in several.

use calls::Calls;
use oracle::cells::{intervals, Interval};
use oracle::choice::{score, Score};
use oracle::fit::{fitting_positions, moved};
use oracle::rng::Rng;
use oracle::task::{Block, Task};
use oracle::{Book, Device, Kind, Position};

use crate::fragments::book_of;
use crate::pair::Pair;
use crate::shapes::{block, comes_and_goes};
use crate::{Mismatch, Trial};

/// How many combs came up. Only those that have a position are counted.
#[derive(Clone, Copy, Debug, Default, PartialEq, Eq)]
pub struct Tally {
    /// Those of logic, of memory or multipliers, and of both, whose choice would be another one if s had an
    /// interval's height for each block in it.
    pub otherwise: [usize; 3],
    /// Those at whose choice each column's blocks lie in one interval, some column's in two, and some in three or more.
    pub lying_in: [usize; 3],
}

/// Lists, chooses, places and releases so many combs on each of so many cards with held cells.
pub fn in_intervals(subject: &dyn Calls, seed: u64, cards: usize, each: usize) -> Trial<Tally> {
    let mut rng = Rng::new(seed);
    let mut tally = Tally::default();
    for index in 0..cards {
        let pair = Pair::on_book(subject, card(&mut rng)?);
        let tried = on_card(&mut rng, &pair, each, &mut tally);
        tried.map_err(|what| Mismatch(format!("card {index}: {what}")))?;
    }
    Ok(tally)
}

/// The same on one card.
fn on_card(rng: &mut Rng, pair: &Pair, combs: usize, tally: &mut Tally) -> Trial<()> {
    for _ in 0..combs {
        let task = comb(rng, pair.book().device());
        comes_and_goes(pair, task.bytes())?;
        tally.add(pair.book(), &task);
    }
    Ok(())
}

/// A card on which some cells are held: the same in all columns, or from one to the next one or two cells lower.
fn card(rng: &mut Rng) -> Trial<Book> {
    let kinds = rng.pick(&[&[0][..], &[0, 0], &[1, 1], &[2, 1, 1], &[0, 1, 0, 1]]);
    let rows = rng.between(10, 30) as usize;
    let device = Device::new(rows as u32, kinds).expect("the limits are kept");
    let share = rng.pick(&[5, 10, 20]);
    // No column has more cells than the card has rows.
    let cells = 0..rows + 2 * kinds.len();
    let held: Vec<bool> = cells.map(|_| rng.percent(share)).collect();
    let lower = rng.below(3);
    let book = book_of(device, |column, cell| held[lower * column + cell]);
    book.ok_or_else(|| Mismatch("too many runs of held cells".to_string()))
}

/// A comb in a column of the device, or in that and the next one.
fn comb(rng: &mut Rng, device: &Device) -> Task {
    let first = rng.below(device.columns());
    let mut blocks = teeth(rng, 0, device.kinds()[first], 0);
    if let Some(next) = device.kind(first + 1).filter(|_| rng.percent(70)) {
        let bottom = rng.pick(&[0, 0, 10, -10, 5]);
        blocks.extend(teeth(rng, 1, next, bottom));
    }
    Task::from_blocks(&blocks).expect("the sentences are kept")
}

/// Up to eight blocks in a column, from a bottom on, with one to three cells between them.
fn teeth(rng: &mut Rng, column: u8, kind: Kind, mut bottom: i16) -> Vec<Block> {
    let most = rng.pick(&[2, 3, 8]);
    let mut blocks = Vec::new();
    for _ in 0..rng.between(1, most) {
        let tooth = block(column, kind, bottom, rng.pick(&[1, 1, 2]));
        bottom = tooth.top + kind.height() as i16 * rng.pick(&[1, 1, 2, 3]);
        blocks.push(tooth);
    }
    blocks
}

/// The column and the interval in which each block of a task lies, at a position where it fits.
fn homes(book: &Book, task: &Task, at: Position) -> Vec<(usize, Interval)> {
    let free = book.free_cells();
    let home = |block: &Block| {
        let column = at.column as usize + usize::from(block.column);
        let all = intervals(book.device(), &free, column);
        let home = all.into_iter().find(|home| home.holds(moved(block, at)))?;
        Some((column, home))
    };
    task.blocks().iter().filter_map(home).collect()
}

/// The choice, if s had an interval's height for each block in it.
fn choice_by_blocks(book: &Book, task: &Task) -> Option<Position> {
    let (device, free) = (book.device(), book.free_cells());
    let mut best: Option<(Position, Score)> = None;
    for at in fitting_positions(device, &free, task) {
        let heights = homes(book, task, at)
            .into_iter()
            .map(|(_, home)| home.height());
        let by_blocks = Score {
            stretch: heights.sum(),
            ..score(device, &free, task, at)?
        };
        if best.is_none_or(|(_, least)| by_blocks.is_less_than(least)) {
            best = Some((at, by_blocks));
        }
    }
    best.map(|(at, _)| at)
}

impl Tally {
    /// Counts a comb, if it has a position.
    fn add(&mut self, book: &Book, task: &Task) {
        let Ok(chosen) = book.choose(task.bytes()) else {
            return;
        };
        let mut homes = homes(book, task, chosen);
        homes.dedup();
        let in_first = homes.partition_point(|home| home.0 == chosen.column as usize);
        let most = in_first.max(homes.len() - in_first);
        self.lying_in[most.clamp(1, 3) - 1] += 1;
        let kinds = match task.step() {
            2 => 0,
            5 => 1,
            _ => 2,
        };
        self.otherwise[kinds] += usize::from(choice_by_blocks(book, task) != Some(chosen));
    }
}
