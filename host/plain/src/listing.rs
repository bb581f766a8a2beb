//! The ranges of a task in one column: the first block's, met with each further block's.

use crate::layout::{height, Record, MAX_INTERVALS};
use crate::record::{column_intervals, on_columns};
use crate::task::{Block, Task};

/// Bottoms from first to last, a step apart.
#[derive(Clone, Copy, Debug, PartialEq, Eq)]
pub struct Range {
    /// The lowest bottom.
    pub first: i32,
    /// The highest bottom.
    pub last: i32,
}

/// Ranges of one step, rising, each as long as can be.
pub struct Ranges {
    list: [Range; MAX_INTERVALS],
    count: usize,
    /// How far the bottoms of a range are apart.
    pub step: i32,
}

impl Ranges {
    /// No ranges.
    pub const EMPTY: Ranges = Ranges {
        list: [Range { first: 0, last: 0 }; MAX_INTERVALS],
        count: 0,
        step: 1,
    };

    /// The ranges.
    pub fn all(&self) -> &[Range] {
        &self.list[..self.count]
    }

    /// Empties the list for ranges of a step.
    fn restart(&mut self, step: i32) {
        self.count = 0;
        self.step = step;
    }

    /// Appends a range, or makes the last one longer where they follow on each other.
    fn push(&mut self, range: Range) {
        if let Some(last) = self.list[..self.count].last_mut() {
            if range.first == last.last + self.step {
                last.last = range.last;
                return;
            }
        }
        self.list[self.count] = range;
        self.count += 1;
    }
}

/// Two lists to work in turn, so that a search over all columns clears memory once.
pub struct Search {
    now: Ranges,
    next: Ranges,
}

impl Search {
    /// A search before its first column.
    pub const START: Search = Search {
        now: Ranges::EMPTY,
        next: Ranges::EMPTY,
    };

    /// The ranges of a task whose first block is in the column.
    pub fn column_ranges(&mut self, record: &Record, task: &Task, column: usize) -> &Ranges {
        // Turns are taken by exchanging references: the lists themselves are large.
        let (mut now, mut next) = (&mut self.now, &mut self.next);
        now.restart(1);
        if !on_columns(record, task, column) {
            return now;
        }
        let Some((first, others)) = task.blocks().split_first() else {
            return now;
        };
        now.restart(height(first.kind()) as i32);
        for range in block_ranges(record, first, column) {
            now.push(range);
        }
        for block in others {
            if now.count == 0 {
                break;
            }
            meet_block(now, record, block, column, next);
            std::mem::swap(&mut now, &mut next);
        }
        now
    }
}

/// The bottoms of the task at which a block fits: one range for each interval that is tall enough.
fn block_ranges<'a>(
    record: &'a Record,
    block: &'a Block,
    column: usize,
) -> impl Iterator<Item = Range> + 'a {
    column_intervals(record, column + block.column())
        .filter(|interval| interval.top - interval.bottom >= block.size())
        .map(|interval| Range {
            first: interval.bottom as i32 - block.bottom(),
            last: interval.top as i32 - block.top(),
        })
}

/// Meets ranges with those of one more block, by one walk up both.
fn meet_block(now: &Ranges, record: &Record, block: &Block, column: usize, next: &mut Ranges) {
    let step = height(block.kind()) as i32;
    next.restart(common_step(now.step, step));
    let mut left = now.all();
    for right in block_ranges(record, block, column) {
        while let Some((&range, higher)) = left.split_first() {
            if right.last < range.first {
                break;
            }
            if right.first <= range.last {
                let met = meet(range, now.step, right, step, next.step);
                if let Some(met) = met {
                    next.push(met);
                }
                if right.last < range.last {
                    break;
                }
            }
            left = higher;
        }
    }
}

/// The least common multiple of two steps of 2, 5 or 10.
fn common_step(a: i32, b: i32) -> i32 {
    if a == b {
        a
    } else {
        10
    }
}

/// The bottoms that both ranges name; their ends overlap.
fn meet(a: Range, a_step: i32, b: Range, b_step: i32, step: i32) -> Option<Range> {
    let low = a.first.max(b.first);
    let high = a.last.min(b.last);
    if a_step == b_step {
        // Of one step: they name the same bottoms, or none.
        let is_met = (a.first - b.first) % step == 0;
        let met = Range {
            first: low,
            last: high,
        };
        return is_met.then_some(met);
    }
    let mut first = a.first + (low - a.first + a_step - 1) / a_step * a_step;
    // What both name repeats with each common step.
    let end = high.min(first + step - 1);
    while first <= end {
        if (first - b.first) % b_step == 0 {
            let last = high - (high - first) % step;
            return Some(Range { first, last });
        }
        first += a_step;
    }
    None
}

#[cfg(test)]
mod tests {
    use super::*;

    #[test]
    fn a_meeting_names_what_both_name() {
        let names = |range: Range, step: i32, y: i32| {
            (range.first..=range.last).contains(&y) && (y - range.first) % step == 0
        };
        for (a_step, b_step) in [(2, 2), (5, 5), (2, 5), (5, 2), (10, 2), (10, 5)] {
            let step = common_step(a_step, b_step);
            for (first, other) in (0..12).flat_map(|a| (0..12).map(move |b| (a, b))) {
                for (length, other_length) in (0..5).flat_map(|a| (0..5).map(move |b| (a, b))) {
                    let a = Range {
                        first,
                        last: first + a_step * length,
                    };
                    let b = Range {
                        first: other,
                        last: other + b_step * other_length,
                    };
                    if a.last < b.first || b.last < a.first {
                        continue;
                    }
                    let met = meet(a, a_step, b, b_step, step);
                    for y in 0..80 {
                        let named = met.is_some_and(|met| names(met, step, y));
                        assert_eq!(named, names(a, a_step, y) && names(b, b_step, y));
                    }
                }
            }
        }
    }
}
