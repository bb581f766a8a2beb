//! Faults of choose that count s otherwise. The list says what each of them is.

use calls::Calls;
use oracle::choice::Score;
use oracle::fit::{moved, Position};
use oracle::listing::{read_ranges, Range, LIST_ROOM};
use oracle::task::{Block, Task};

use crate::fragments::{nodes, Node};

/// The interval in which each block of a task lies at a position.
fn homes(nodes: &[Node], task: &Task, at: Position) -> Vec<Node> {
    let home = |block: &Block| {
        let column = at.column as usize + usize::from(block.column);
        let lying = moved(block, at);
        let holds = |node: &&Node| {
            let (bottom, top) = (i64::from(node.bottom), i64::from(node.top));
            node.column == column && bottom <= lying.bottom && lying.top <= top
        };
        nodes.iter().find(holds).copied()
    };
    task.blocks().iter().filter_map(home).collect()
}

/// The right rule: a block adds the height of its interval if it is the lowest in it.
fn is_lowest(homes: &[Node], index: usize) -> bool {
    index == 0 || homes[index - 1] != homes[index]
}

/// The right n, and s from those blocks that add the height of their interval by a rule.
fn score(
    homes: &[Node],
    task: &Task,
    at: Position,
    adds: impl Fn(&[Node], usize) -> bool,
) -> Score {
    let (mut pieces, mut stretch) = (0, 0);
    for (index, (home, block)) in homes.iter().zip(task.blocks()).enumerate() {
        let lying = moved(block, at);
        let is_cut_below = is_lowest(homes, index) && i64::from(home.bottom) < lying.bottom;
        pieces += i64::from(is_cut_below) + i64::from(lying.top < i64::from(home.top));
        if adds(homes, index) {
            stretch += i64::from(home.top - home.bottom);
        }
    }
    Score { pieces, stretch }
}

/// Chooses among the listed positions, with such an s.
fn choose_by(
    right: &dyn Calls,
    record: &[u8],
    task: &[u8],
    adds: impl Fn(&[Node], usize) -> bool,
) -> i32 {
    let mut output = vec![0; LIST_ROOM];
    let count = right.list(record, task, &mut output);
    let (1.., Ok(task)) = (count, Task::from_bytes(task)) else {
        // With room enough, list refuses what choose refuses.
        return count;
    };
    let nodes = nodes(record);
    let ranges = read_ranges(&output, count as usize);
    let mut best: Option<(Position, Score)> = None;
    for at in ranges.into_iter().flat_map(Range::positions) {
        let score = score(&homes(&nodes, &task, at), &task, at, &adds);
        if best.is_none_or(|(_, least)| score.is_less_than(least)) {
            best = Some((at, score));
        }
    }
    best.map_or(count, |(at, _)| at.answer())
}

/// No fault: the same way to choose, with the right s.
pub fn choose_by_the_rule(right: &dyn Calls, record: &[u8], task: &[u8]) -> i32 {
    choose_by(right, record, task, is_lowest)
}

pub fn counted_for_each_block(right: &dyn Calls, record: &[u8], task: &[u8]) -> i32 {
    choose_by(right, record, task, |_, _| true)
}

pub fn told_apart_by_bottoms(right: &dyn Calls, record: &[u8], task: &[u8]) -> i32 {
    choose_by(right, record, task, |homes, index| {
        index == 0 || homes[index - 1].bottom != homes[index].bottom
    })
}

pub fn told_apart_by_both_ends(right: &dyn Calls, record: &[u8], task: &[u8]) -> i32 {
    let ends = |home: Node| (home.bottom, home.top);
    choose_by(right, record, task, |homes, index| {
        index == 0 || ends(homes[index - 1]) != ends(homes[index])
    })
}

pub fn lowest_of_a_column_only(right: &dyn Calls, record: &[u8], task: &[u8]) -> i32 {
    choose_by(right, record, task, |homes, index| {
        index == 0 || homes[index - 1].column != homes[index].column
    })
}

pub fn counted_again_from_the_fifth(right: &dyn Calls, record: &[u8], task: &[u8]) -> i32 {
    choose_by(right, record, task, |homes, index| {
        let below = homes[..index].iter().filter(|&home| *home == homes[index]);
        matches!(below.count(), 0 | 4..)
    })
}

pub fn from_the_third_left_out(right: &dyn Calls, record: &[u8], task: &[u8]) -> i32 {
    choose_by(right, record, task, |homes, index| {
        let lowest = (0..index).filter(|&lower| is_lowest(homes, lower));
        let below = lowest.filter(|&lower| homes[lower].column == homes[index].column);
        is_lowest(homes, index) && below.count() < 2
    })
}
