//! The choice: the position with least n / s, looked for where a block touches an end of its interval.

use crate::column::Interval;
use crate::layout::{Record, MAX_BLOCKS};
use crate::listing::{Range, Search};
use crate::record::{columns, home};
use crate::task::Task;

/// What a position costs, and how far up it costs no less.
struct Score {
    /// n: how many intervals are left of those into which a block is put.
    pieces: u32,
    /// s: the heights of the intervals that hold a block, each interval once, added up.
    stretch: u32,
    /// The least room above any block in its interval.
    room: u32,
}

/// The best position so far.
#[derive(Clone, Copy)]
struct Best {
    column: usize,
    bottom: i32,
    pieces: u32,
    stretch: u32,
}

/// The search for the best position of a task.
struct Chooser<'a> {
    record: &'a Record,
    task: &'a Task,
    /// For each block, the number of the interval in which it was last found, in whichever column: as the bottom
    /// rises, it is found there or a little higher.
    homes: [usize; MAX_BLOCKS],
    best: Option<Best>,
}

/// The chosen column and bottom; none where no position fits.
pub fn chosen(record: &Record, task: &Task) -> Option<(usize, i32)> {
    let mut search = Search::START;
    let mut choice = Chooser::of(record, task);
    for column in 0..columns(record) {
        let ranges = search.column_ranges(record, task, column);
        for &range in ranges.all() {
            choice.climb(column, range, ranges.step);
        }
    }
    choice.best.map(|best| (best.column, best.bottom))
}

impl Chooser<'_> {
    /// A search before its first column.
    fn of<'a>(record: &'a Record, task: &'a Task) -> Chooser<'a> {
        Chooser {
            record,
            task,
            homes: [0; MAX_BLOCKS],
            best: None,
        }
    }

    /// Looks at a range from its first bottom up, and passes over those that cannot be better.
    ///
    /// While every block stays in its interval, the stretch stays and the pieces are least at the
    /// lowest or at the highest bottom, where a block touches an end of its interval.
    fn climb(&mut self, column: usize, range: Range, step: i32) {
        let mut bottom = range.first;
        while bottom <= range.last {
            // Every bottom of a range fits, so a score is always there.
            let Some(score) = self.score(column, bottom) else {
                return;
            };
            let is_better = self
                .best
                .is_none_or(|best| score.pieces * best.stretch < best.pieces * score.stretch);
            if is_better {
                self.best = Some(Best {
                    column,
                    bottom,
                    pieces: score.pieces,
                    stretch: score.stretch,
                });
            }
            let steps = (score.room as i32 + step - 1) / step;
            bottom += step * steps.max(1);
        }
    }

    /// The score of a fitting position, block by block.
    fn score(&mut self, column: usize, bottom: i32) -> Option<Score> {
        let mut score = Score {
            pieces: 0,
            stretch: 0,
            room: u32::MAX,
        };
        let mut previous: Option<(usize, Interval)> = None;
        for (block, near) in self.task.blocks().iter().zip(&mut self.homes) {
            let bottom = (bottom + block.bottom()) as u32;
            let top = bottom + block.size();
            let here = column + block.column();
            // Blocks of one interval follow each other, from the lowest up: the next one is in the same
            // interval if it ends there.
            let shared = previous.filter(|&(column, home)| column == here && top <= home.top);
            let holder = match shared {
                Some((_, holder)) => holder,
                None => {
                    // The first of them counts the height, and the piece below: between two blocks it
                    // is the piece above the lower one.
                    let (number, holder) = home(self.record, here, *near, bottom, top)?;
                    *near = number;
                    score.pieces += u32::from(holder.bottom < bottom);
                    score.stretch += holder.top - holder.bottom;
                    holder
                }
            };
            score.pieces += u32::from(top < holder.top);
            score.room = score.room.min(holder.top - top);
            previous = Some((here, holder));
        }
        Some(score)
    }
}

#[cfg(test)]
mod tests {
    use super::Chooser;
    use crate::calls::{checked, new, place};
    use crate::layout::RECORD_SIZE;
    use crate::task::Task;

    /// Two blocks of one cell of logic, the upper one cell above the lower.
    const COMB: [u8; 12] = [0, 0, 0, 0, 2, 0, 0, 0, 4, 0, 6, 0];
    /// Two blocks of one cell of logic, side by side.
    const PAIR: [u8; 12] = [0, 0, 0, 0, 2, 0, 1, 0, 0, 0, 2, 0];

    /// n and s at a bottom of column 0, on a card of 5 rows with cells of logic held in that column.
    fn of(kinds: &[u8], held: &[i32], task: &[u8], bottom: i32) -> Option<(u32, u32)> {
        let mut record = vec![0; RECORD_SIZE];
        assert_eq!(new(&mut record, 5, kinds), 0);
        for (number, &bottom) in (1..).zip(held) {
            let cell = [0, 0, 0, 0, 2, 0];
            assert_eq!(place(&mut record, &cell, number, 0, bottom), 0);
        }
        let task = Task::from_bytes(task)?;
        let score = Chooser::of(checked(&record).ok()?, &task).score(0, bottom)?;
        Some((score.pieces, score.stretch))
    }

    #[test]
    fn an_interval_with_two_blocks_counts_once() {
        assert_eq!(of(&[0], &[], &COMB, 0), Some((2, 10)));
        // Free are 0–2 and 4–10: the two blocks lie in both, or in the upper one.
        assert_eq!(of(&[0], &[2], &COMB, 0), Some((1, 8)));
        assert_eq!(of(&[0], &[2], &COMB, 4), Some((1, 6)));
        assert_eq!(of(&[0], &[2], &COMB, 2), None);
    }

    #[test]
    fn a_score_is_the_same_whichever_was_looked_at_before_it() {
        let mut record = vec![0; RECORD_SIZE];
        assert_eq!(new(&mut record, 5, &[0]), 0);
        let cell = [0, 0, 0, 0, 2, 0];
        assert_eq!(place(&mut record, &cell, 1, 0, 4), 0);
        let task = Task::from_bytes(&cell).expect("one cell");
        let record = checked(&record).expect("a record of calls");
        let mut choice = Chooser::of(record, &task);
        // Free are 0–4 and 6–10. Upwards the block's interval is found from the last one on, and downwards from the lowest.
        for (bottom, stretch, near) in [(0, 4, 0), (6, 4, 1), (8, 4, 1), (2, 4, 0)] {
            let score = choice.score(0, bottom).expect("it fits");
            assert_eq!((score.stretch, choice.homes[0]), (stretch, near));
        }
    }

    #[test]
    fn intervals_of_two_columns_are_two() {
        assert_eq!(of(&[0, 0], &[], &PAIR, 0), Some((2, 20)));
        // 0–8 and 0–10.
        assert_eq!(of(&[0, 0], &[8], &PAIR, 4), Some((4, 18)));
    }
}
