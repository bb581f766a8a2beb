//! The cards that calls are measured on, each made by a history of calls from a fixed seed.

use calls::Calls;
use oracle::arbitrary::fitting_task;
use oracle::rng::Rng;
use oracle::task::{bytes_of, Block};
use oracle::{Device, Kind, Position};

use crate::bytes::Bytes;

/// The number that measured placements use: odd, and amid the even ones of the loads, so that entries are moved.
pub const PROBE_NUMBER: u32 = 30_001;

/// A card to measure on.
pub struct Load {
    /// What stands in the table.
    pub name: String,
    /// Its rows.
    pub rows: u32,
    /// Its kinds.
    pub kinds: Vec<u8>,
    /// Its record.
    pub record: Bytes,
}

/// A task to ask for.
pub struct Probe {
    /// What stands in the table.
    pub name: String,
    /// Its bytes.
    pub task: Vec<u8>,
}

/// The kinds of a card of 64 columns: in each eight, six of logic, one of memory, one of multipliers.
pub fn kinds() -> Vec<u8> {
    [0, 0, 0, 1, 0, 0, 0, 2].repeat(8)
}

/// The blocks of a task from column, kind, bottom and top.
fn task(blocks: &[(u8, Kind, i16, i16)]) -> Vec<u8> {
    let block = |&(column, kind, bottom, top): &(u8, Kind, i16, i16)| Block {
        column,
        kind,
        bottom,
        top,
    };
    let blocks: Vec<Block> = blocks.iter().map(block).collect();
    bytes_of(&blocks)
}

/// Five blocks of logic and memory, as a usual circuit has them.
pub fn mixed_probe() -> Probe {
    let blocks = [
        (0, Kind::C, 0, 4),
        (0, Kind::C, 8, 10),
        (1, Kind::C, -2, 6),
        (2, Kind::C, 0, 8),
        (3, Kind::B, 0, 5),
    ];
    Probe {
        name: "5 blocks".to_string(),
        task: task(&blocks),
    }
}

/// A comb: so many blocks of one cell in one column, one cell apart.
pub fn comb(teeth: i16) -> Vec<u8> {
    let tooth = |index| (0, Kind::C, 4 * index, 4 * index + 2);
    let blocks: Vec<_> = (0..teeth).map(tooth).collect();
    task(&blocks)
}

/// A comb of 16 blocks, which fits between the blocks of others.
pub fn comb_probe() -> Probe {
    Probe {
        name: "comb of 16".to_string(),
        task: comb(16),
    }
}

/// A task of so many blocks, one in each of the columns from the left, in their kinds.
pub fn wide_probe(blocks: usize) -> Probe {
    let of_column = |(column, &kind): (usize, &u8)| {
        let kind = Kind::ALL[usize::from(kind)];
        (column as u8, kind, 0, 2 * kind.height() as i16)
    };
    let all: Vec<_> = kinds().iter().enumerate().map(of_column).collect();
    Probe {
        name: format!("{blocks} blocks"),
        task: task(&all[..blocks]),
    }
}

/// A card of some kinds without running tasks.
fn empty_of(subject: &dyn Calls, rows: u32, kinds: Vec<u8>) -> Load {
    let mut record = Bytes::zeros();
    assert_eq!(subject.new(&mut record, rows, &kinds), 0);
    Load {
        name: format!("empty, {rows} rows"),
        rows,
        kinds,
        record,
    }
}

/// A card of mixed columns without running tasks.
pub fn empty(subject: &dyn Calls, rows: u32) -> Load {
    empty_of(subject, rows, kinds())
}

/// A card with so many tasks of five blocks, placed where choose says, after others came and went.
pub fn busy(subject: &dyn Calls, tasks: usize) -> Load {
    let mut load = empty(subject, 128);
    load.name = format!("{tasks} tasks of 5 blocks");
    let device = Device::new(128, &load.kinds).expect("the limits are kept");
    let mut rng = Rng::new(2024);
    let mut running = Vec::new();
    let mut next = 0;
    while running.len() < tasks {
        let drawn = fitting_task(&mut rng, &device, 5).filter(|task| task.blocks().len() == 5);
        let Some(task) = drawn else { continue };
        let chosen = subject.choose(&load.record, task.bytes());
        if chosen < 0 {
            continue;
        }
        next += 1;
        // Numbers all over the range, so that entries are not only appended.
        let number = next * 40_503 % 32_768 * 2;
        let Position { column, bottom } = Position::of_answer(chosen);
        let placed = subject.place(&mut load.record, task.bytes(), number, column, bottom);
        assert_eq!(placed, 0);
        running.push(number);
        if running.len() % 3 == 0 && next < 2 * tasks as u32 {
            let number = running.swap_remove(rng.below(running.len()));
            assert_eq!(subject.release(&mut load.record, number), 0);
        }
    }
    load
}

/// How many tasks run on a load of combs or rakes: with the measured one, as many as can.
const MANY: usize = 63;

/// A card with 63 combs of so many blocks in 32 columns.
pub fn combs(subject: &dyn Calls, teeth: i16) -> Load {
    let mut load = empty(subject, 128);
    load.name = format!("63 combs of {teeth} blocks");
    let logic = (0..64).filter(|&column| load.kinds[column as usize] == Kind::C.byte());
    let places = logic.flat_map(|column| [(column, 0), (column, 128)]);
    for (index, (column, bottom)) in places.take(MANY).enumerate() {
        let number = 1000 * (index as u32 + 1);
        let placed = subject.place(&mut load.record, &comb(teeth), number, column, bottom);
        assert_eq!(placed, 0);
    }
    load
}

/// A card with 63 rakes: each has a cell in each of 32 columns, and the next one stands above it, with one free cell between.
pub fn rakes(subject: &dyn Calls) -> Load {
    let mut load = empty(subject, 128);
    load.name = "63 rakes of 32 blocks".into();
    let columns = (0..64).filter(|&column| load.kinds[usize::from(column)] == Kind::C.byte());
    let blocks: Vec<_> = columns.take(32).map(|c| (c, Kind::C, 0, 2)).collect();
    let rake = task(&blocks);
    for index in 0..MANY as u32 {
        let bottom = 4 * index as i32;
        let placed = subject.place(&mut load.record, &rake, 1000 * (index + 1), 0, bottom);
        assert_eq!(placed, 0);
    }
    load
}

/// The most blocks of a task, as a comb's teeth.
const MOST_TEETH: i16 = 32;

/// A card of which every other cell is held: 64 columns of logic, a comb of 32 blocks in each.
///
/// It has 64 rows, since no more blocks than these can run. The combs of odd columns have a bottom of their own.
fn every_other(subject: &dyn Calls, name: &str, odd_bottom: i32) -> Load {
    let kinds = vec![Kind::C.byte(); 64];
    let mut load = empty_of(subject, 64, kinds);
    load.name = format!("{name} of 2,048 blocks");
    for column in 0..64 {
        let bottom = odd_bottom * (column as i32 % 2);
        let number = 1000 * (column + 1);
        let placed = subject.place(&mut load.record, &comb(MOST_TEETH), number, column, bottom);
        assert_eq!(placed, 0);
    }
    load
}

/// Every other cell held, the same in all columns: each row of free cells is a connected set.
pub fn stripes(subject: &dyn Calls) -> Load {
    every_other(subject, "stripes", 0)
}

/// Every other cell held, in neighbouring columns not the same: each free cell is a connected set.
pub fn chessboard(subject: &dyn Calls) -> Load {
    every_other(subject, "chessboard", 2)
}
