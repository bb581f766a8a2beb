//! Well-formedness, rule by rule (MODEL 4.5 to 4.10), on both sides of each limit.

use crate::helpers::task;
use oracle::{Refusal, Task};

fn judge(bytes: &[u8]) -> i32 {
    match Task::from_bytes(bytes) {
        Ok(read) => {
            assert_eq!(read.bytes(), bytes);
            0
        }
        Err(refusal) => refusal.number(),
    }
}

#[test]
fn lengths() {
    // One C cell in each column, so that only the length can be wrong.
    let blocks: Vec<_> = (0..44).map(|column| (column, 'C', 0, 2)).collect();
    let long = task(&blocks);
    for length in 0..=long.len() {
        let bytes = &long[..length];
        let is_good = length % 6 == 0 && (6..=192).contains(&length);
        assert_eq!(judge(bytes), if is_good { 0 } else { -4 }, "{length}");
    }
    assert_eq!(judge(&[]), Refusal::TaskLength.number());
}

#[test]
fn the_first_block() {
    assert_eq!(judge(&task(&[(0, 'C', 0, 2)])), 0);
    assert_eq!(judge(&task(&[(1, 'C', 0, 2)])), -5);
    assert_eq!(judge(&task(&[(0, 'C', 2, 4)])), -5);
    assert_eq!(judge(&task(&[(0, 'C', -2, 0)])), -5);
}

#[test]
fn columns() {
    let with = |second: u8, third: u8| {
        judge(&task(&[
            (0, 'C', 0, 2),
            (second, 'C', 0, 2),
            (third, 'C', 4, 6),
        ]))
    };
    assert_eq!(with(1, 2), 0);
    assert_eq!(with(1, 1), 0);
    assert_eq!(with(5, 63), 0);
    assert_eq!(with(5, 64), -5);
    assert_eq!(with(5, 255), -5);
    assert_eq!(with(5, 4), -5);
}

#[test]
fn one_kind_in_a_column() {
    assert_eq!(judge(&task(&[(0, 'B', 0, 5), (0, 'B', 6, 11)])), 0);
    assert_eq!(judge(&task(&[(0, 'B', 0, 5), (0, 'D', 6, 11)])), -5);
    assert_eq!(judge(&task(&[(0, 'B', 0, 5), (0, 'C', 6, 8)])), -5);
    assert_eq!(judge(&task(&[(0, 'B', 0, 5), (1, 'C', 6, 8)])), 0);
}

#[test]
fn each_bottom_above_the_previous_top() {
    assert_eq!(judge(&task(&[(0, 'C', 0, 4), (0, 'C', 5, 7)])), 0);
    assert_eq!(judge(&task(&[(0, 'C', 0, 4), (0, 'C', 4, 6)])), -5);
    assert_eq!(judge(&task(&[(0, 'C', 0, 4), (0, 'C', 2, 6)])), -5);
    assert_eq!(judge(&task(&[(0, 'C', 0, 4), (0, 'C', -4, -2)])), -5);
    assert_eq!(judge(&task(&[(0, 'C', 0, 4), (1, 'C', -4, -2)])), 0);
}

#[test]
fn kinds() {
    for kind in 0..=255 {
        let height = if kind == 0 { 2 } else { 5 };
        let expected = if kind <= 2 { 0 } else { -5 };
        assert_eq!(judge(&[0, kind, 0, 0, height, 0]), expected);
    }
}

#[test]
fn bottoms_and_tops() {
    let second = |bottom: i16, top: i16| judge(&task(&[(0, 'C', 0, 2), (1, 'C', bottom, top)]));
    assert_eq!(second(-256, 256), 0);
    assert_eq!(second(-257, -255), -5);
    assert_eq!(second(-257, 255), -5);
    assert_eq!(second(254, 256), 0);
    assert_eq!(second(255, 257), -5);
    assert_eq!(second(-255, 257), -5);
    assert_eq!(second(i16::MIN, i16::MAX), -5);
    assert_eq!(second(i16::MIN, 0), -5);
}

#[test]
fn top_minus_bottom_is_a_positive_multiple() {
    for size in -12..=12_i16 {
        for (letter, height) in [('C', 2), ('B', 5), ('D', 5)] {
            let expected = if size > 0 && size % height == 0 {
                0
            } else {
                -5
            };
            let bytes = task(&[(0, 'C', 0, 2), (1, letter, 3, 3 + size)]);
            assert_eq!(judge(&bytes), expected, "{letter} {size}");
        }
    }
}

#[test]
fn steps() {
    let step = |blocks: &[(u8, char, i16, i16)]| Task::from_bytes(&task(blocks)).unwrap().step();
    assert_eq!(step(&[(0, 'C', 0, 2), (1, 'C', 0, 2)]), 2);
    assert_eq!(step(&[(0, 'B', 0, 5)]), 5);
    assert_eq!(step(&[(0, 'B', 0, 5), (1, 'D', 0, 5)]), 5);
    assert_eq!(step(&[(0, 'B', 0, 5), (1, 'C', 0, 2)]), 10);
    assert_eq!(step(&[(0, 'C', 0, 2), (1, 'D', 0, 5)]), 10);
}
