//! Faults of fragmentation. The list says what each of them is.

use calls::Calls;
use oracle::layout::*;
use oracle::Kind;

/// The degree of the whole.
const WHOLE: i32 = 10_000;

/// An interval with its column.
#[derive(Clone, Copy, PartialEq, Eq)]
pub struct Node {
    pub column: usize,
    pub bottom: u16,
    pub top: u16,
}

/// How many columns the second of two intervals is to the right.
fn apart(one: &Node, other: &Node) -> usize {
    other.column.wrapping_sub(one.column)
}

/// How many half rows two intervals share; below 0, how far they are from each other.
fn shared(one: &Node, other: &Node) -> i32 {
    i32::from(one.top.min(other.top)) - i32::from(one.bottom.max(other.bottom))
}

/// All intervals of a record, by column and upwards.
pub fn nodes(record: &[u8]) -> Vec<Node> {
    let in_column = |column| {
        let count = usize::from(record[COUNTS_AT + column]);
        let intervals = record[column_part(column)].chunks(INTERVAL_SIZE);
        intervals.take(count).map(move |interval| Node {
            column,
            bottom: word(interval, 0),
            top: word(interval, INTERVAL_TOP_AT),
        })
    };
    let columns = 0..usize::from(record[COLUMNS_AT]);
    columns.flat_map(in_column).collect()
}

/// The pairs of intervals, the left one first, that touch by a rule.
fn pairs(nodes: &[Node], touch: impl Fn(&Node, &Node) -> bool) -> Vec<(usize, usize)> {
    let mut pairs = Vec::new();
    for (left, one) in nodes.iter().enumerate() {
        let others = nodes.iter().enumerate().skip(left + 1);
        let touching = others.filter(|(_, other)| touch(one, other));
        pairs.extend(touching.map(|(right, _)| (left, right)));
    }
    pairs
}

/// The root of a node, or the node to which so many steps up lead.
fn root(parents: &[usize], mut node: usize, mut steps: usize) -> usize {
    while parents[node] != node && steps > 0 {
        node = parents[node];
        steps -= 1;
    }
    node
}

/// How many sets so many nodes make, the pairs joined one by one, with roots looked for so many steps up.
fn sets(nodes: usize, pairs: &[(usize, usize)], steps: usize) -> i32 {
    let mut parents: Vec<usize> = (0..nodes).collect();
    let mut sets = nodes as i32;
    for &(one, other) in pairs {
        let one = root(&parents, one, steps);
        let other = root(&parents, other, steps);
        if one != other {
            parents[one.max(other)] = one.min(other);
            sets -= 1;
        }
    }
    sets
}

/// The degree, whatever the sets are.
fn degree_of(sets: i32, free: i32) -> i32 {
    match free {
        0 | 1 => 0,
        _ => WHOLE * (sets - 1) / (free - 1),
    }
}

/// Fragmentation, with the sets of a sound record counted otherwise.
fn with_sets(
    right: &dyn Calls,
    record: &[u8],
    free: &mut i32,
    degree: &mut i32,
    count: impl Fn(i32) -> i32,
) -> i32 {
    match right.fragmentation(record, free, degree) {
        answer @ 0.. => {
            let sets = count(answer);
            *degree = degree_of(sets, *free);
            sets
        }
        refusal => refusal,
    }
}

/// The same, by another rule of which intervals touch.
fn touching(
    right: &dyn Calls,
    record: &[u8],
    free: &mut i32,
    degree: &mut i32,
    touch: impl Fn(&Node, &Node) -> bool,
) -> i32 {
    with_sets(right, record, free, degree, |_| {
        let nodes = nodes(record);
        sets(nodes.len(), &pairs(&nodes, &touch), usize::MAX)
    })
}

/// The right rule.
fn share(one: &Node, other: &Node) -> bool {
    apart(one, other) == 1 && shared(one, other) > 0
}

pub fn columns_never_touch(r: &dyn Calls, record: &[u8], free: &mut i32, degree: &mut i32) -> i32 {
    touching(r, record, free, degree, |_, _| false)
}

pub fn ends_touch(r: &dyn Calls, record: &[u8], free: &mut i32, degree: &mut i32) -> i32 {
    touching(r, record, free, degree, |one, other| {
        apart(one, other) == 1 && shared(one, other) >= 0
    })
}

pub fn one_half_row_is_too_little(
    right: &dyn Calls,
    record: &[u8],
    free: &mut i32,
    degree: &mut i32,
) -> i32 {
    touching(right, record, free, degree, |one, other| {
        apart(one, other) == 1 && shared(one, other) > 1
    })
}

pub fn two_apart_touch(r: &dyn Calls, record: &[u8], free: &mut i32, degree: &mut i32) -> i32 {
    touching(r, record, free, degree, |one, other| {
        (1..=2).contains(&apart(one, other)) && shared(one, other) > 0
    })
}

pub fn last_column_alone(r: &dyn Calls, record: &[u8], free: &mut i32, degree: &mut i32) -> i32 {
    let is_last = |node: &Node| node.column + 1 == usize::from(record[COLUMNS_AT]);
    touching(r, record, free, degree, |one, other| {
        share(one, other) && !is_last(other)
    })
}

pub fn past_no_cells(r: &dyn Calls, record: &[u8], free: &mut i32, degree: &mut i32) -> i32 {
    let has_cells = |column: usize| {
        let rows = u32::from(word(record, ROWS_AT));
        let kind = Kind::from_byte(record[KINDS_AT + column]);
        kind.is_some_and(|kind| kind.cells(rows) > 0)
    };
    touching(r, record, free, degree, |one, other| {
        let mut between = one.column + 1..other.column;
        one.column < other.column && !between.any(has_cells) && shared(one, other) > 0
    })
}

pub fn pairs_counted(r: &dyn Calls, record: &[u8], free: &mut i32, degree: &mut i32) -> i32 {
    with_sets(r, record, free, degree, |_| {
        let nodes = nodes(record);
        nodes.len() as i32 - pairs(&nodes, share).len() as i32
    })
}

pub fn four_nodes_up(r: &dyn Calls, record: &[u8], free: &mut i32, degree: &mut i32) -> i32 {
    with_sets(r, record, free, degree, |_| {
        let nodes = nodes(record);
        sets(nodes.len(), &pairs(&nodes, share), 4)
    })
}

/// The half rows of a cell of a column.
fn height(record: &[u8], column: usize) -> i32 {
    Kind::from_byte(record[KINDS_AT + column]).map_or(1, |kind| kind.height() as i32)
}

/// The free cells of some columns, with the height that their cells have.
fn free_cells(
    record: &[u8],
    columns: std::ops::Range<usize>,
    height: impl Fn(usize) -> i32,
) -> i32 {
    let nodes = nodes(record).into_iter();
    let of_these = nodes.filter(|node| columns.contains(&node.column));
    let cells = of_these.map(|node| i32::from(node.top - node.bottom) / height(node.column));
    cells.sum()
}

pub fn without_last_column(r: &dyn Calls, record: &[u8], free: &mut i32, degree: &mut i32) -> i32 {
    let answer = r.fragmentation(record, free, degree);
    if answer >= 0 {
        let last = usize::from(record[COLUMNS_AT]) - 1;
        *free = free_cells(record, 0..last, |column| height(record, column));
    }
    answer
}

pub fn memory_as_logic(r: &dyn Calls, record: &[u8], free: &mut i32, degree: &mut i32) -> i32 {
    let answer = r.fragmentation(record, free, degree);
    if answer >= 0 {
        let columns = 0..usize::from(record[COLUMNS_AT]);
        let height = |column| match record[KINDS_AT + column] {
            1 => Kind::C.height() as i32,
            _ => height(record, column),
        };
        *free = free_cells(record, columns, height);
        *degree = degree_of(answer, *free);
    }
    answer
}

pub fn sets_in_11_bits(r: &dyn Calls, record: &[u8], free: &mut i32, degree: &mut i32) -> i32 {
    match r.fragmentation(record, free, degree) {
        answer @ 0.. => answer % (1 << 11),
        refusal => refusal,
    }
}

pub fn one_set_at_least(r: &dyn Calls, record: &[u8], free: &mut i32, degree: &mut i32) -> i32 {
    with_sets(r, record, free, degree, |sets| sets.max(1))
}

pub fn divided_by_free(r: &dyn Calls, record: &[u8], free: &mut i32, degree: &mut i32) -> i32 {
    let answer = r.fragmentation(record, free, degree);
    if answer >= 0 && *free > 1 {
        *degree = WHOLE * (answer - 1) / *free;
    }
    answer
}

pub fn rounded_up(r: &dyn Calls, record: &[u8], free: &mut i32, degree: &mut i32) -> i32 {
    let answer = r.fragmentation(record, free, degree);
    if answer >= 0 && *free > 1 {
        let rest = WHOLE * (answer - 1) % (*free - 1);
        *degree += i32::from(rest > 0);
    }
    answer
}

pub fn degree_of_one(r: &dyn Calls, record: &[u8], free: &mut i32, degree: &mut i32) -> i32 {
    let answer = r.fragmentation(record, free, degree);
    if *free == 1 {
        *degree = WHOLE;
    }
    answer
}

pub fn refusal_leaves_numbers(
    right: &dyn Calls,
    record: &[u8],
    free: &mut i32,
    degree: &mut i32,
) -> i32 {
    let before = (*free, *degree);
    let answer = right.fragmentation(record, free, degree);
    if answer < 0 {
        (*free, *degree) = before;
    }
    answer
}
