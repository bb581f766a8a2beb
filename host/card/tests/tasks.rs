//! Tasks are kept in document 01's layout.

use card::{Block, Kind, Task};

/// A block as column, kind, bottom and top.
type Values = (u8, Kind, i16, i16);

/// Blocks, and the bytes that document 01 has for them.
const TASKS: [(&[Values], &[u8]); 4] = [
    (&[(0, Kind::C, 0, 2)], &[0, 0, 0, 0, 2, 0]),
    (
        &[(0, Kind::C, 0, 2), (1, Kind::C, -2, 2), (2, Kind::B, 1, 6)],
        &[
            0, 0, 0, 0, 2, 0, // C 0 to 2
            1, 0, 0xFE, 0xFF, 2, 0, // C −2 to 2
            2, 1, 1, 0, 6, 0, // B 1 to 6
        ],
    ),
    (
        &[(0, Kind::D, 0, 255), (63, Kind::B, -256, 256)],
        &[
            0, 2, 0, 0, 0xFF, 0, // D 0 to 255
            63, 1, 0, 0xFF, 0, 1, // B −256 to 256
        ],
    ),
    (
        &[(255, Kind::C, i16::MIN, i16::MAX)],
        &[255, 0, 0, 0x80, 0xFF, 0x7F],
    ),
];

#[test]
fn blocks_are_laid_out_as_document_01_says() {
    for (blocks, bytes) in TASKS {
        let built = blocks
            .iter()
            .fold(Task::builder(), |task, &(column, kind, bottom, top)| {
                task.block(column, kind, bottom, top)
            });
        let task = built.build().expect("1 to 32 blocks");
        assert_eq!(task.as_bytes(), bytes);
        assert_eq!(Task::from_bytes(bytes), Ok(task));
        let read: Vec<Block> = task.blocks().collect();
        assert_eq!(Task::from_blocks(&read), Ok(task));
        let read = read.iter().map(|b| (b.column, b.kind, b.bottom, b.top));
        assert!(read.eq(blocks.iter().copied()));
    }
}

#[test]
fn a_task_of_one_block() {
    assert_eq!(Task::of(Kind::D, 10).as_bytes(), [0, 2, 0, 0, 10, 0]);
}

#[test]
fn the_longest_task() {
    let blocks: Vec<u8> = (0..32)
        .flat_map(|k| [0, 0, 4 * k, 0, 4 * k + 2, 0])
        .collect();
    let task = Task::from_bytes(&blocks).expect("32 blocks");
    assert_eq!(task.as_bytes(), blocks);
    assert_eq!(task.blocks().len(), 32);
}
