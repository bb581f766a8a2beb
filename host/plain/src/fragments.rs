//! How broken up a card is: the connected sets of its free cells, the free cells, and the degree.
//!
//! An interval is connected, and two in neighbouring columns touch where they share a half row. So sets
//! are counted over intervals: at first each is a set of its own, and every join of two sets is one set less.

use crate::layout::*;
use crate::record;

/// One node for each interval that a record has room for.
const NODES: usize = MAX_COLUMNS * MAX_INTERVALS;

/// Sets of nodes as a forest: every node has a parent that is not above it, and a root is its own.
struct Sets {
    parents: [u16; NODES],
}

impl Sets {
    /// So many nodes, each in a set of its own.
    fn apart(nodes: usize) -> Sets {
        let mut parents = [0; NODES];
        for (node, parent) in parents[..nodes].iter_mut().enumerate() {
            *parent = node as u16;
        }
        Sets { parents }
    }

    /// The root of a node's set.
    fn root(&self, mut node: usize) -> usize {
        loop {
            let parent = usize::from(self.parents[node]);
            if parent == node {
                return node;
            }
            node = parent;
        }
    }

    /// Makes one set of the sets of two nodes, under the lower root; answers whether they were two.
    fn unite(&mut self, one: usize, other: usize) -> bool {
        let (one, other) = (self.root(one), self.root(other));
        self.parents[one.max(other)] = one.min(other) as u16;
        one != other
    }

    /// Joins the intervals of a column and of the next that share a half row; answers how many joins made two
    /// sets one. The nodes of the column begin at `left`, those of the next at `right`.
    fn join_next(&mut self, record: &Record, column: usize, left: usize, right: usize) -> usize {
        let mut lefts = record::column_intervals(record, column).zip(left..);
        let mut rights = record::column_intervals(record, column + 1).zip(right..);
        let (mut x, mut y) = (lefts.next(), rights.next());
        let mut joins = 0;
        while let (Some((one, i)), Some((other, j))) = (x, y) {
            if one.bottom < other.top && other.bottom < one.top {
                joins += usize::from(self.unite(i, j));
            }
            // The one that ends first can't touch anything further up.
            if one.top <= other.top {
                x = lefts.next();
            } else {
                y = rights.next();
            }
        }
        joins
    }
}

/// How many connected sets the free cells of a sound record make.
pub fn sets(record: &Record) -> u32 {
    let columns = record::columns(record);
    let nodes = (0..columns).map(|column| record::count(record, column));
    let nodes = nodes.sum();
    let mut sets = Sets::apart(nodes);
    let mut joins = 0;
    let mut left = 0;
    for next in 1..columns {
        let right = left + record::count(record, next - 1);
        joins += sets.join_next(record, next - 1, left, right);
        left = right;
    }
    (nodes - joins) as u32
}

/// How many cells of a sound record are free.
pub fn free_cells(record: &Record) -> u32 {
    let in_column = |column| {
        let free = record::column_intervals(record, column);
        let half_rows: u32 = free.map(|interval| interval.top - interval.bottom).sum();
        half_rows / height(record::kind(record, column))
    };
    (0..record::columns(record)).map(in_column).sum()
}

/// The degree of so many sets of so many free cells, in hundredths of a percent, rounded down.
pub fn degree(sets: u32, free: u32) -> u32 {
    match free {
        0 | 1 => 0,
        _ => 10_000 * (sets - 1) / (free - 1),
    }
}

#[cfg(test)]
mod tests {
    use crate::calls::{fragmentation, new, place};
    use crate::layout::RECORD_SIZE;

    /// Sets, free cells and degree of a card on which blocks of one kind are held: column, kind, bottom and top.
    fn of(rows: u32, kinds: &[u8], held: &[(u32, u8, i32, u8)]) -> (i32, i32, i32) {
        let mut record = vec![0; RECORD_SIZE];
        assert_eq!(new(&mut record, rows, kinds), 0);
        for (number, &(column, kind, bottom, top)) in (1..).zip(held) {
            let task = [0, kind, 0, 0, top - bottom as u8, 0];
            assert_eq!(place(&mut record, &task, number, column, bottom), 0);
        }
        let (mut free, mut degree) = (7, 7);
        let sets = fragmentation(&record, &mut free, &mut degree);
        (sets, free, degree)
    }

    #[test]
    fn an_empty_card_is_one_set() {
        assert_eq!(of(5, &[0, 0, 1], &[]), (1, 12, 0));
        // Two columns of one cell, and one without between them: nothing touches.
        assert_eq!(of(1, &[0, 1, 0], &[]), (2, 2, 10_000));
        assert_eq!(of(1, &[1, 2], &[]), (0, 0, 0));
    }

    #[test]
    fn touching_is_to_share_a_half_row() {
        // C 4–6 shares half row 4 with B 0–5, and not with B 5–10.
        let logic = [(0, 0, 0, 4), (0, 0, 6, 10)];
        assert_eq!(of(5, &[0, 1], &[logic[0], logic[1], (1, 1, 5, 10)]).0, 1);
        assert_eq!(of(5, &[0, 0], &[(0, 0, 0, 4), (1, 0, 4, 10)]).0, 2);
    }

    #[test]
    fn a_ring_is_one_set() {
        // The held cell in the middle has free cells all around it, which meet twice.
        assert_eq!(of(3, &[0, 0, 0], &[(1, 0, 2, 4)]), (1, 8, 0));
    }

    #[test]
    fn the_degree_is_rounded_down() {
        // Two sets of four free cells: a third.
        assert_eq!(of(5, &[0], &[(0, 0, 4, 6)]), (2, 4, 3_333));
        assert_eq!(of(1, &[0], &[]), (1, 1, 0));
    }
}
