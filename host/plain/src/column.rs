//! One column's intervals, in the 256 bytes that a record has for them.

use crate::layout::{COLUMN_SIZE, INTERVAL_SIZE, MAX_INTERVALS};

/// A column's part of the record.
pub type Part = [u8; COLUMN_SIZE];

/// A run of half rows, top excluded.
#[derive(Clone, Copy, Debug, PartialEq, Eq)]
pub struct Interval {
    /// The lowest half row.
    pub bottom: u32,
    /// The half row above the highest.
    pub top: u32,
}

/// The interval of four bytes.
fn interval(bytes: &[u8; INTERVAL_SIZE]) -> Interval {
    // One load for both numbers.
    let both = u32::from_le_bytes(*bytes);
    Interval {
        bottom: both & 0xFFFF,
        top: both >> 16,
    }
}

/// The first intervals of a part, upwards.
pub fn intervals(part: &Part, count: usize) -> impl Iterator<Item = Interval> + '_ {
    part.as_chunks().0.iter().take(count).map(interval)
}

/// A new list of intervals, as one number for each.
struct Stream {
    // One place more than there are intervals, for what is written and not kept.
    packed: [u32; MAX_INTERVALS + 1],
    count: usize,
}

impl Stream {
    fn new() -> Stream {
        Stream {
            packed: [0; MAX_INTERVALS + 1],
            count: 0,
        }
    }

    /// Appends an interval, unless it is empty: always written, and counted if it is kept.
    #[inline]
    fn push(&mut self, bottom: u32, top: u32) {
        self.packed[self.count] = bottom | top << 16;
        self.count += usize::from(bottom < top);
    }

    /// Writes the list over a part, zeros after its end; answers its length.
    #[inline]
    fn copy_to(&mut self, part: &mut Part) -> usize {
        // An empty interval may have been written last.
        self.packed[self.count] = 0;
        for (bytes, both) in part.chunks_exact_mut(INTERVAL_SIZE).zip(&self.packed) {
            bytes.copy_from_slice(&both.to_le_bytes());
        }
        self.count
    }
}

/// Takes the half rows from bottom to top out; answers the new count.
pub fn cut(part: &mut Part, count: usize, bottom: u32, top: u32) -> usize {
    let mut stream = Stream::new();
    for old in intervals(part, count) {
        if old.top <= bottom || top <= old.bottom {
            stream.push(old.bottom, old.top);
        } else {
            stream.push(old.bottom, bottom);
            stream.push(top, old.top);
        }
    }
    stream.copy_to(part)
}

/// Puts the half rows from bottom to top in, which were not free, as one interval
/// with those that touch them below and above; answers the new count.
pub fn join(part: &mut Part, count: usize, bottom: u32, top: u32) -> usize {
    let mut stream = Stream::new();
    let mut joined = Interval { bottom, top };
    let mut waiting = true;
    for old in intervals(part, count) {
        if old.top < bottom {
            stream.push(old.bottom, old.top);
        } else if old.top == bottom {
            joined.bottom = old.bottom;
        } else if old.bottom == top {
            joined.top = old.top;
        } else {
            if waiting {
                stream.push(joined.bottom, joined.top);
                waiting = false;
            }
            stream.push(old.bottom, old.top);
        }
    }
    if waiting {
        stream.push(joined.bottom, joined.top);
    }
    stream.copy_to(part)
}

/// Where a search for half rows from bottom up begins: at the hinted interval if that begins no higher, else at the lowest.
fn begin(list: &[[u8; INTERVAL_SIZE]], hint: usize, bottom: u32) -> usize {
    let is_low = |bytes: &[u8; INTERVAL_SIZE]| interval(bytes).bottom <= bottom;
    if list.get(hint).is_some_and(is_low) {
        hint
    } else {
        0
    }
}

/// The interval that holds all half rows from bottom to top, if one does, and its number; the hint is where it may be.
pub fn holder(
    part: &Part,
    count: usize,
    hint: usize,
    bottom: u32,
    top: u32,
) -> Option<(usize, Interval)> {
    let list = part.as_chunks().0.get(..count)?;
    let start = begin(list, hint, bottom);
    // Intervals rise, so none but the first that reaches up to the top can hold them.
    let higher = &list[start..];
    let steps = higher.iter().position(|bytes| top <= interval(bytes).top)?;
    let reaching = interval(&higher[steps]);
    (reaching.bottom <= bottom).then_some((start + steps, reaching))
}

#[cfg(test)]
mod tests {
    use super::*;

    /// A part with the given intervals.
    fn part_of(list: &[(u32, u32)]) -> (Part, usize) {
        let mut stream = Stream::new();
        for &(bottom, top) in list {
            stream.push(bottom, top);
        }
        let mut part = [0; COLUMN_SIZE];
        let count = stream.copy_to(&mut part);
        (part, count)
    }

    #[test]
    fn a_cut_leaves_what_is_below_and_above() {
        let (mut part, count) = part_of(&[(0, 4), (6, 20)]);
        let count = cut(&mut part, count, 8, 10);
        assert_eq!((part, count), part_of(&[(0, 4), (6, 8), (10, 20)]));
        let count = cut(&mut part, count, 0, 4);
        assert_eq!((part, count), part_of(&[(6, 8), (10, 20)]));
    }

    #[test]
    fn a_join_reaches_both_sides() {
        let full = part_of(&[(0, 20)]);
        let (mut part, mut count) = full;
        for (bottom, top) in [(2, 4), (6, 8), (4, 6)] {
            count = cut(&mut part, count, bottom, top);
        }
        for (bottom, top) in [(2, 4), (6, 8), (4, 6)] {
            count = join(&mut part, count, bottom, top);
        }
        assert_eq!((part, count), full);
    }

    #[test]
    fn a_join_into_an_empty_column_and_at_its_ends() {
        let (mut part, mut count) = part_of(&[]);
        for (bottom, top) in [(4, 6), (0, 2), (8, 10), (2, 4)] {
            count = join(&mut part, count, bottom, top);
        }
        assert_eq!((part, count), part_of(&[(0, 6), (8, 10)]));
    }

    #[test]
    fn a_search_begins_at_the_hint_unless_that_is_too_high() {
        let (part, count) = part_of(&[(0, 4), (6, 20), (22, 24)]);
        let list = &part.as_chunks().0[..count];
        assert_eq!([0, 1, 2].map(|hint| begin(list, hint, 6)), [0, 1, 0]);
        assert_eq!([0, 1, 2, 3].map(|hint| begin(list, hint, 22)), [0, 1, 2, 0]);
        assert_eq!(begin(&[], 0, 22), 0);
    }

    #[test]
    fn a_holder_holds_all_of_it_whatever_the_hint() {
        let (part, count) = part_of(&[(0, 4), (6, 20), (22, 24)]);
        let (lowest, middle) = (
            Interval { bottom: 0, top: 4 },
            Interval { bottom: 6, top: 20 },
        );
        for hint in 0..5 {
            assert_eq!(holder(&part, count, hint, 8, 20), Some((1, middle)));
            assert_eq!(holder(&part, count, hint, 0, 2), Some((0, lowest)));
            assert_eq!(holder(&part, count, hint, 2, 6), None);
            assert_eq!(holder(&part, count, hint, 18, 22), None);
            assert_eq!(holder(&part, count, hint, 22, 26), None);
        }
    }
}
