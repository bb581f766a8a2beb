//! The choice: the fitting position whose n / s is least (document 01, with s as in
//! document 02, W2).

use crate::cells::{intervals, CellSet, Interval};
use crate::device::Device;
use crate::fit::{cells_of, fits, fitting_positions, moved, moved_column, Position};
use crate::task::Task;

/// What a position costs: n over s, here pieces over stretch.
#[derive(Clone, Copy, Debug, PartialEq, Eq, Hash)]
pub struct Score {
    /// n: how many intervals are left of those into which a block is put.
    pub pieces: i64,
    /// s: the heights of the intervals into which a block is put, added up, none twice.
    pub stretch: i64,
}

impl Score {
    /// Whether n / s is less here than there, by cross-products.
    pub fn is_less_than(self, other: Score) -> bool {
        self.pieces * other.stretch < other.pieces * self.stretch
    }
}

/// An interval with its column. Columns may have intervals of one bottom and one top, and
/// the column tells them apart.
type Holder = (usize, Interval);

/// The score of a position; none where the task does not fit.
///
/// The holders are found first: s adds up their heights, n counts what is left in them.
pub fn score(device: &Device, free: &CellSet, task: &Task, at: Position) -> Option<Score> {
    if !fits(device, free, task, at) {
        return None;
    }
    let holders = holders(device, free, task, at)?;
    let mut free_after = free.clone();
    for (column, cell) in cells_of(device, task, at)? {
        free_after.remove(column, cell);
    }
    let pieces = pieces(device, &free_after, &holders);
    let stretch = holders.iter().map(|(_, holder)| holder.height()).sum();
    Some(Score { pieces, stretch })
}

/// The free intervals into which the blocks of a task are put, each once even where several
/// blocks share it.
fn holders(device: &Device, free: &CellSet, task: &Task, at: Position) -> Option<Vec<Holder>> {
    let mut found = Vec::new();
    for block in task.blocks() {
        let column = moved_column(device, block, at)?;
        let interval = intervals(device, free, column)
            .into_iter()
            .find(|interval| interval.holds(moved(block, at)))?;
        if !found.contains(&(column, interval)) {
            found.push((column, interval));
        }
    }
    Some(found)
}

/// How many free intervals lie inside the given ones.
fn pieces(device: &Device, free: &CellSet, holders: &[Holder]) -> i64 {
    let mut count = 0;
    for &(column, holder) in holders {
        let inside = intervals(device, free, column)
            .into_iter()
            .filter(|&interval| holder.holds(interval));
        count += inside.count() as i64;
    }
    count
}

/// The chosen position, or none when no position fits.
pub fn chosen(device: &Device, free: &CellSet, task: &Task) -> Option<Position> {
    let mut best: Option<(Position, Score)> = None;
    // Positions come by column and then by bottom, so only a lesser score
    // displaces an earlier one: that is how ties are to be broken.
    for at in fitting_positions(device, free, task) {
        let score = score(device, free, task, at)?;
        let is_better = best.is_none_or(|(_, least)| score.is_less_than(least));
        if is_better {
            best = Some((at, score));
        }
    }
    best.map(|(at, _)| at)
}
