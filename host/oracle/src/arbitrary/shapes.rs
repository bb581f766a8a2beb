//! Random devices and tasks.

use crate::device::{Device, Kind, MAX_COLUMNS};
use crate::rng::Rng;
use crate::task::{Block, Task, BLOCK_SIZE, MAX_BLOCKS, REACH};

/// A random device, often small.
pub fn device(rng: &mut Rng) -> Device {
    let rows = match rng.below(4) {
        0 => rng.between(1, 6),
        1 => rng.between(1, 20),
        2 => 128,
        _ => rng.between(1, 128),
    };
    let columns = match rng.below(4) {
        0 => rng.between(1, 3),
        1 => rng.between(1, 8),
        2 => MAX_COLUMNS as i64,
        _ => rng.between(1, MAX_COLUMNS as i64),
    };
    let palette: &[u8] = rng.pick(&[&[0][..], &[1], &[0, 1], &[0, 1, 2], &[0, 0, 0, 1, 2]]);
    let kinds: Vec<u8> = (0..columns).map(|_| rng.pick(palette)).collect();
    Device::new(rows as u32, &kinds).expect("the limits are kept")
}

/// Arguments for new, within and without the limits.
pub fn device_arguments(rng: &mut Rng) -> (u32, Vec<u8>) {
    let good = device(rng);
    let mut rows = good.rows();
    let mut kinds = good.kind_bytes();
    match rng.below(6) {
        0 => rows = rng.pick(&[0, 129, 256, 257, 65_536, 65_541, u32::MAX]),
        1 => kinds = vec![0; rng.pick(&[0, 65, 66, 128, 256, 257])],
        2 => {
            let column = rng.below(kinds.len());
            kinds[column] = rng.pick(&[3, 4, 128, 255]);
        }
        _ => {}
    }
    (rows, kinds)
}

/// A well-formed task that fits somewhere on the empty device; none where no column has a cell.
pub fn fitting_task(rng: &mut Rng, device: &Device, most_blocks: usize) -> Option<Task> {
    let columns: Vec<usize> = (0..device.columns())
        .filter(|&column| device.cells(column) > 0)
        .collect();
    if columns.is_empty() {
        return None;
    }
    let wanted = 1 + rng.below(most_blocks.min(MAX_BLOCKS));
    let origin = rng.pick(&columns);
    let mut column = origin;
    let mut blocks: Vec<Block> = Vec::new();
    while blocks.len() < wanted && column < device.columns() {
        let here = 1 + rng.below(3).min(wanted - blocks.len() - 1);
        let stack = stack(rng, device, column, here);
        blocks.extend(stack.into_iter().map(|block| Block {
            column: (column - origin) as u8,
            ..block
        }));
        column += rng.pick(&[1, 1, 1, 2, 3]);
    }
    // The blocks stand at half rows of the device; tasks count from the first bottom.
    let base = blocks.first()?.bottom;
    for block in &mut blocks {
        block.bottom -= base;
        block.top -= base;
    }
    Task::from_blocks(&blocks).ok()
}

/// Up to so many blocks in one column of the device, upwards, with gaps between them.
fn stack(rng: &mut Rng, device: &Device, column: usize, count: usize) -> Vec<Block> {
    let mut blocks = Vec::new();
    let Some(kind) = device.kind(column) else {
        return blocks;
    };
    let cells = device.cells(column);
    let height = kind.height() as i16;
    // Leave room for the blocks to come, or low cards would get one block only.
    let mut first = rng.below(cells.saturating_sub(3 * (count - 1)));
    while blocks.len() < count && first < cells {
        let most = rng.pick(&[1, 2, 4, 12]);
        let size = 1 + rng.below(most.min(cells - first));
        blocks.push(Block {
            column: 0,
            kind,
            bottom: height * first as i16,
            top: height * (first + size) as i16,
        });
        first += size + 1 + rng.below(2);
    }
    blocks
}

/// A well-formed task of any shape, that seldom fits anywhere.
pub fn loose_task(rng: &mut Rng, most_blocks: usize) -> Task {
    let wanted = 1 + rng.below(most_blocks.min(MAX_BLOCKS));
    let mut kind = rng.pick(&Kind::ALL);
    let mut blocks = vec![Block {
        column: 0,
        kind,
        bottom: 0,
        top: (kind.height() * rng.between(1, 51)) as i16,
    }];
    let mut column = 0;
    let mut lowest = i64::from(blocks[0].top) + 1;
    while blocks.len() < wanted && column < MAX_COLUMNS as i64 {
        let bottom = lowest + rng.between(0, 40);
        let most = rng.pick(&[1, 3, 256]);
        let room = ((REACH - bottom) / kind.height()).min(most);
        if room >= 1 && rng.percent(40) {
            let top = bottom + kind.height() * rng.between(1, room);
            blocks.push(Block {
                column: column as u8,
                kind,
                bottom: bottom as i16,
                top: top as i16,
            });
            lowest = top + 1;
        } else {
            column += rng.between(1, 4);
            kind = rng.pick(&Kind::ALL);
            lowest = rng.between(-REACH, 200);
        }
    }
    Task::from_blocks(&blocks).expect("the sentences are kept")
}

/// A well-formed task: mostly one that fits on the empty device.
pub fn task(rng: &mut Rng, device: &Device, most_blocks: usize) -> Task {
    match fitting_task(rng, device, most_blocks) {
        Some(task) if rng.percent(90) => task,
        _ => loose_task(rng, most_blocks),
    }
}

/// Task bytes of any kind: of a wrong length, damaged, or well-formed.
pub fn task_bytes(rng: &mut Rng, device: &Device, most_blocks: usize) -> Vec<u8> {
    let mut bytes = task(rng, device, most_blocks).bytes().to_vec();
    match rng.below(6) {
        0 => bytes.truncate(rng.below(bytes.len())),
        1 => bytes.resize(bytes.len() + rng.below(200), 0),
        2 => {
            let at = rng.below(bytes.len());
            bytes[at] = rng.byte();
        }
        3 => {
            // Near misses: a little up or down.
            let at = rng.below(bytes.len());
            bytes[at] = bytes[at].wrapping_add(rng.pick(&[1, 255, 2, 254, 5, 251]));
        }
        4 => {
            bytes = (0..BLOCK_SIZE * (1 + rng.below(3)))
                .map(|_| rng.byte())
                .collect()
        }
        _ => {}
    }
    bytes
}
