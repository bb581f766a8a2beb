//! A column's cells as bits: bit k of its two words is set where cell k is held, or where the column has no cell k.

use std::slice::ChunksExact;

use crate::column::Part;
use crate::layout::{word, INTERVAL_SIZE, MAX_INTERVALS, MAX_ROWS, WORD_SIZE};

/// The most cells of a column: a row has one cell of logic, and other cells are taller.
const MAX_CELLS: u32 = MAX_ROWS;
/// The words of a column.
const WORDS: usize = MAX_CELLS.div_ceil(u64::BITS) as usize;

/// The cells of a column that are not free.
#[derive(Clone, Copy, Debug, PartialEq, Eq)]
pub struct Held([u64; WORDS]);

/// The lowest so many bits of a word, or all where it has no more.
fn low(bits: u32) -> u64 {
    1u64.checked_shl(bits).map_or(u64::MAX, |bit| bit - 1)
}

impl Held {
    /// A column with so many cells, all free.
    pub fn none_of(cells: u32) -> Held {
        let mut held = Held([0; WORDS]);
        held.mark_words(cells, MAX_CELLS);
        held
    }

    /// Marks the cells from `from` up to `to`, at least one; answers whether the column has them all, and none was held.
    #[inline]
    pub fn mark(&mut self, from: u32, to: u32) -> bool {
        debug_assert!(from < to);
        if to > MAX_CELLS {
            return false;
        }
        let first = from / u64::BITS;
        let base = u64::BITS * first;
        if to - base > u64::BITS {
            return self.mark_words(from, to);
        }
        // Most runs lie in one word.
        let word = &mut self.0[first as usize];
        let run = u64::MAX >> (u64::BITS - (to - from)) << (from - base);
        let is_free = *word & run == 0;
        *word |= run;
        is_free
    }

    /// The same, word by word.
    fn mark_words(&mut self, from: u32, to: u32) -> bool {
        let mut is_free = true;
        for (word, base) in self.0.iter_mut().zip((0..).step_by(u64::BITS as usize)) {
            let run = low(to.saturating_sub(base)) & !low(from.saturating_sub(base));
            is_free &= *word & run == 0;
            *word |= run;
        }
        is_free
    }

    /// Whether a part and its count are those of the free intervals, for cells of a height.
    #[inline]
    pub fn lists(&self, part: &Part, count: usize, height: u32) -> bool {
        if count > MAX_INTERVALS {
            return false;
        }
        let (used, unused) = part.split_at(INTERVAL_SIZE * count);
        let mut ends = Ends {
            numbers: used.chunks_exact(WORD_SIZE),
            height,
            difference: 0,
        };
        let (mut base, mut carry) = (0, 0);
        for held in self.0 {
            let free = !held;
            // An interval begins or ends where a cell is unlike the one below it.
            if !ends.compare(free ^ (free << 1 | carry), base) {
                return false;
            }
            carry = free >> (u64::BITS - 1);
            base += u64::BITS;
        }
        // Above the last bit no cell is free.
        ends.compare(carry, base) && ends.are_all_alike() && zeros(unused)
    }
}

/// The bottoms and tops of a part's intervals, upwards, while they are compared.
struct Ends<'a> {
    numbers: ChunksExact<'a, u8>,
    height: u32,
    difference: u32,
}

impl Ends<'_> {
    /// Compares the next numbers with the set bits of a word whose first bit is cell `base`; answers whether there are as many.
    #[inline]
    fn compare(&mut self, mut bits: u64, base: u32) -> bool {
        while bits != 0 {
            let Some(number) = self.numbers.next() else {
                return false;
            };
            let cell = base + bits.trailing_zeros();
            self.difference |= word(number, 0) ^ (self.height * cell);
            bits &= bits - 1;
        }
        true
    }

    /// Whether no number is left, and all that were compared are alike.
    #[inline]
    fn are_all_alike(&self) -> bool {
        self.numbers.len() == 0 && self.difference == 0
    }
}

/// How many bytes are tested together.
const CHUNK: usize = 64;

/// Whether all bytes are 0.
#[inline]
pub fn zeros(bytes: &[u8]) -> bool {
    let or = |bytes: &[u8]| bytes.iter().fold(0, |all, byte| all | byte);
    let Some(last) = bytes.last_chunk::<CHUNK>() else {
        return or(bytes) == 0;
    };
    // Whole chunks alone, of which the last two may overlap, and no way out before the end: so it vectorises.
    let mut all = *last;
    for chunk in bytes.as_chunks::<CHUNK>().0 {
        for (all, byte) in all.iter_mut().zip(chunk) {
            *all |= byte;
        }
    }
    or(&all) == 0
}

#[cfg(test)]
mod tests {
    use super::*;
    use crate::column::cut;
    use crate::layout::{put_word, COLUMN_SIZE, INTERVAL_TOP_AT};

    /// The runs of a column's cells: all pairs from < to.
    fn runs(cells: u32) -> impl Iterator<Item = (u32, u32)> {
        (0..cells).flat_map(move |from| (from + 1..=cells).map(move |to| (from, to)))
    }

    /// The held cells one by one.
    fn bits(held: Held) -> Vec<bool> {
        let bit = |cell: u32| held.0[(cell / 64) as usize] >> (cell % 64) & 1 == 1;
        (0..MAX_CELLS).map(bit).collect()
    }

    #[test]
    fn a_mark_sets_the_bits_of_its_run_alone() {
        for (from, to) in runs(MAX_CELLS) {
            let mut held = Held::none_of(MAX_CELLS);
            assert!(held.mark(from, to));
            let wanted: Vec<bool> = (0..MAX_CELLS).map(|k| (from..to).contains(&k)).collect();
            assert_eq!(bits(held), wanted, "{from} to {to}");
        }
    }

    #[test]
    fn a_mark_misses_what_is_held_and_what_is_not_there() {
        for cells in [0, 1, 51, 63, 64, 65, 127, 128] {
            for held_cell in [0, 1, 50, 62, 63, 64, 65, 126, 127] {
                let mut marked = Held::none_of(cells);
                marked.mark(held_cell, held_cell + 1);
                for (from, to) in runs(MAX_CELLS + 2) {
                    let is_free = to <= cells && !(from..to).contains(&held_cell);
                    let mut again = marked;
                    assert_eq!(again.mark(from, to), is_free, "{from} to {to}");
                }
            }
        }
    }

    /// A column of so many cells of a height, and its part and count, with every run cut out by `column::cut`.
    fn cut_out(cells: u32, height: u32, runs: &[(u32, u32)]) -> (Held, Part, usize) {
        let mut held = Held::none_of(cells);
        let mut part = [0; COLUMN_SIZE];
        put_word(&mut part, INTERVAL_TOP_AT, height * cells);
        let mut count = usize::from(cells > 0);
        for &(from, to) in runs {
            assert!(held.mark(from, to));
            count = cut(&mut part, count, height * from, height * to);
        }
        (held, part, count)
    }

    #[test]
    fn a_column_lists_what_cuts_leave() {
        for (cells, height) in [(0, 5), (1, 2), (51, 5), (64, 2), (65, 2), (128, 2)] {
            for (from, to) in runs(cells) {
                let (held, part, count) = cut_out(cells, height, &[(from, to)]);
                assert!(held.lists(&part, count, height), "{from} to {to}");
            }
            let every_other: Vec<_> = (0..cells).step_by(2).map(|k| (k, k + 1)).collect();
            let (held, part, count) = cut_out(cells, height, &every_other);
            assert!(held.lists(&part, count, height));
        }
    }

    #[test]
    fn a_column_lists_nothing_else() {
        let few = cut_out(128, 2, &[(3, 5), (60, 70), (120, 121)]);
        let every_other: Vec<_> = (0..128).step_by(2).map(|k| (k, k + 1)).collect();
        let height = 2;
        for (held, part, count) in [few, cut_out(128, 2, &every_other), cut_out(0, 2, &[])] {
            for other in (0..256).filter(|&other| other != count) {
                assert!(!held.lists(&part, other, height), "{other} intervals");
            }
            for bit in 0..8 * COLUMN_SIZE {
                let mut part = part;
                part[bit / 8] ^= 1 << (bit % 8);
                assert!(!held.lists(&part, count, height), "bit {bit}");
            }
        }
    }

    #[test]
    fn bytes_of_any_length_are_zeros_if_none_is_set() {
        let mut bytes = [0; 200];
        for length in 0..=bytes.len() {
            for at in 0..bytes.len() {
                assert!(zeros(&bytes[..length]));
                bytes[at] = 1 << (at % 8);
                assert_eq!(zeros(&bytes[..length]), length <= at, "{at} of {length}");
                bytes[at] = 0;
            }
        }
    }
}
