//! Which block breaks which rule: on written cases, and yes or no as the proved library has it.

use card::{bytes, Block, Broken, Card, Device, Kind, Refusal, Rule, Task};
use oracle::arbitrary;
use oracle::rng::Rng;

/// A block as column, kind, bottom and top.
type Values = (u8, Kind, i16, i16);

/// The task of these blocks.
fn task(blocks: &[Values]) -> Task {
    let blocks = blocks.iter().map(|&(column, kind, bottom, top)| Block {
        column,
        kind,
        bottom,
        top,
    });
    Task::from_blocks(&blocks.collect::<Vec<_>>()).expect("1 to 32 blocks")
}

/// Whether the proved library takes a task for well-formed: whether choose does not answer −5.
fn is_well_formed(record: &[u8], task: &[u8]) -> bool {
    bytes::choose(record, task) != Refusal::TaskNotWellFormed.number()
}

/// A record to ask about tasks.
fn record() -> Box<[u8]> {
    Card::new(&Device::from_text(5, "CB").expect("a device")).into_bytes()
}

use Kind::{B, C, D};

/// Tasks with the block and the rule that each breaks.
const BROKEN: [(&[Values], usize, Rule); 22] = [
    (&[(1, C, 0, 2)], 0, Rule::FirstColumn),
    (&[(64, C, 2, 4)], 0, Rule::FirstColumn),
    (&[(0, C, 2, 4)], 0, Rule::FirstBottom),
    (&[(0, C, -2, 0)], 0, Rule::FirstBottom),
    (
        &[(0, C, 0, 2), (2, C, 0, 2), (1, C, 0, 2)],
        2,
        Rule::ColumnFalls,
    ),
    (&[(0, C, 0, 2), (64, C, 0, 2)], 1, Rule::ColumnTooHigh),
    (
        &[(0, C, 0, 2), (255, C, 0, 2), (0, C, 0, 2)],
        1,
        Rule::ColumnTooHigh,
    ),
    (&[(0, B, 0, 5), (0, D, 6, 11)], 1, Rule::OtherKind),
    (&[(0, C, 0, 2), (0, B, 0, 5)], 1, Rule::OtherKind),
    // K8: touching blocks would be one block.
    (&[(0, C, 0, 2), (0, C, 2, 4)], 1, Rule::NotAbove),
    (
        &[(0, C, 0, 2), (0, C, 4, 6), (0, C, 5, 7)],
        2,
        Rule::NotAbove,
    ),
    (&[(0, C, 0, 2), (0, C, -4, -2)], 1, Rule::NotAbove),
    (&[(0, C, 0, 2), (1, C, -257, -255)], 1, Rule::BottomTooLow),
    (
        &[(0, C, 0, 2), (1, C, i16::MIN, i16::MAX)],
        1,
        Rule::BottomTooLow,
    ),
    (&[(0, C, 0, 2), (1, C, 255, 257)], 1, Rule::TopTooHigh),
    (&[(0, C, 0, 258)], 0, Rule::TopTooHigh),
    // K9: no whole cell.
    (&[(0, B, 0, 4)], 0, Rule::NotWholeCells),
    (&[(0, C, 0, 0)], 0, Rule::NotWholeCells),
    (&[(0, C, 0, -2)], 0, Rule::NotWholeCells),
    (&[(0, C, 0, i16::MIN)], 0, Rule::NotWholeCells),
    (&[(0, C, 0, 3), (64, B, 0, 0)], 0, Rule::NotWholeCells),
    (&[(0, D, 0, 5), (1, D, 0, 6)], 1, Rule::NotWholeCells),
];

/// Tasks that keep all rules, just so.
const GOOD: [&[Values]; 8] = [
    &[(0, C, 0, 2)],
    &[(0, C, 0, 256)],
    &[(0, D, 0, 255)],
    &[(0, C, 0, 2), (0, C, 3, 5)],
    &[(0, C, 0, 2), (0, C, 4, 6), (0, C, 8, 10)],
    &[(0, B, 0, 5), (1, D, 6, 11)],
    &[(0, C, 0, 2), (63, C, -256, 256)],
    &[(0, C, 0, 2), (2, B, -256, -251), (2, B, 251, 256)],
];

#[test]
fn the_rule_and_the_block_are_named() {
    let record = record();
    for (blocks, block, rule) in BROKEN {
        let task = task(blocks);
        assert_eq!(task.check(), Err(Broken { block, rule }), "{task}");
        assert!(!is_well_formed(&record, task.as_bytes()), "{task}");
    }
    for blocks in GOOD {
        let task = task(blocks);
        assert_eq!(task.check(), Ok(()), "{task}");
        assert!(is_well_formed(&record, task.as_bytes()), "{task}");
    }
}

/// Half rows at which a rule begins or ends to hold.
const HALF_ROWS: [i16; 22] = [
    i16::MIN,
    -32_766,
    -258,
    -257,
    -256,
    -255,
    -5,
    -2,
    -1,
    0,
    1,
    2,
    3,
    4,
    5,
    6,
    7,
    255,
    256,
    257,
    32_766,
    i16::MAX,
];

/// Every block with one of these columns and half rows.
fn boundary_blocks() -> Vec<Values> {
    let mut blocks = Vec::new();
    for column in [0, 1, 62, 63, 64, 65, 255] {
        for kind in Kind::ALL {
            for bottom in HALF_ROWS {
                blocks.extend(HALF_ROWS.map(|top| (column, kind, bottom, top)));
            }
        }
    }
    blocks
}

/// Compares check with the proved library; answers whether the task is well-formed.
fn compare(record: &[u8], task: &Task) -> bool {
    let is_good = task.check().is_ok();
    assert_eq!(is_good, is_well_formed(record, task.as_bytes()), "{task}");
    is_good
}

#[test]
fn the_proved_library_agrees_at_the_boundaries() {
    let record = record();
    let good = |blocks: &[Values]| compare(&record, &task(blocks));
    let all = boundary_blocks();
    let alone = all.iter().filter(|&&block| good(&[block])).count();
    // C up to 2, 4, 6 and 256; B and D up to 5 and 255.
    assert_eq!(alone, 4 + 2 * 2);
    for first in [(0, C, 0, 2), (0, B, 0, 5), (0, D, 0, 255), (0, C, 0, 256)] {
        let after = all.iter().filter(|&&block| good(&[first, block])).count();
        assert!(after > 100, "{after} after {first:?}");
    }
    let pair = [(0, C, 0, 2), (62, B, -255, 0)];
    let third = all
        .iter()
        .filter(|&&block| good(&[pair[0], pair[1], block]));
    assert!(third.count() > 50);
}

#[test]
fn the_proved_library_agrees_on_random_tasks() {
    let record = record();
    let mut rng = Rng::new(14);
    let mut counts = [0; 3];
    for _ in 0..40_000 {
        let device = arbitrary::device(&mut rng);
        let bytes = arbitrary::task_bytes(&mut rng, &device, 32);
        match Task::from_bytes(&bytes) {
            Ok(task) => counts[usize::from(compare(&record, &task))] += 1,
            Err(refusal) => {
                assert_eq!(bytes::choose(&record, &bytes), refusal.number());
                counts[2] += 1;
            }
        }
    }
    assert!(counts.iter().all(|&count| count > 3000), "{counts:?}");
}
