//! The scan of the matrix and the flood fill compared with the oracle.

use oracle::arbitrary;
use oracle::calls;
use oracle::layout::RECORD_SIZE;
use oracle::listing::LIST_ROOM;
use oracle::record::record_of;
use oracle::rng::Rng;
use oracle::task::{bytes_of, Block, MAX_BLOCKS};
use oracle::{Device, Kind};

/// Lists and chooses on the record with both; answers what choose does.
fn compare(record: &[u8], task: &[u8], output_bytes: usize) -> i32 {
    let mut output = vec![0x3C; output_bytes];
    let mut wanted = output.clone();
    let listed = matrix::list(record, task, &mut output);
    assert_eq!(listed, calls::list(record, task, &mut wanted));
    assert!(output == wanted);
    let chosen = matrix::choose(record, task);
    assert_eq!(chosen, calls::choose(record, task));
    chosen
}

/// Fragmentation of the record with both; answers sets, free cells and degree.
fn compare_fragmentation(record: &[u8]) -> [i32; 3] {
    let numbers = |call: fn(&[u8], &mut i32, &mut i32) -> i32| {
        let (mut free, mut degree) = (7, 7);
        let sets = call(record, &mut free, &mut degree);
        [sets, free, degree]
    };
    let found = numbers(matrix::fragmentation);
    assert_eq!(found, numbers(calls::fragmentation));
    found
}

/// Random runs of cells in a column, by cells: each begins above the end of the one before.
fn runs(rng: &mut Rng, cells: usize, share: usize) -> Vec<(usize, usize)> {
    let mut runs: Vec<(usize, usize)> = Vec::new();
    for cell in (0..cells).filter(|_| rng.percent(share)) {
        match runs.last_mut() {
            Some((_, end)) if *end == cell => *end += 1,
            _ => runs.push((cell, cell + 1)),
        }
    }
    runs.truncate(MAX_BLOCKS);
    runs
}

/// The task that has these runs as its blocks.
fn task_of(kind: Kind, runs: &[(usize, usize)]) -> Vec<u8> {
    let height = |cells: usize| kind.height() as i16 * (cells - runs[0].0) as i16;
    let block = |&(first, end): &(usize, usize)| Block {
        column: 0,
        kind,
        bottom: height(first),
        top: height(end),
    };
    bytes_of(&runs.iter().map(block).collect::<Vec<_>>())
}

/// The record of a random card on which about such a share of each column is held, in many small blocks.
fn scattered(rng: &mut Rng, device: &Device, share: usize) -> Vec<u8> {
    let mut record = vec![0; RECORD_SIZE];
    let made = plain::new(&mut record, device.rows(), &device.kind_bytes());
    assert_eq!(made, 0);
    for (column, &kind) in (0..).zip(device.kinds()) {
        let runs = runs(rng, kind.cells(device.rows()), share);
        let Some(&(first, _)) = runs.first() else {
            continue;
        };
        let bottom = kind.height() as i32 * first as i32;
        let task = task_of(kind, &runs);
        let placed = plain::place(&mut record, &task, column + 1, column, bottom);
        assert_eq!(placed, 0);
    }
    record
}

#[test]
fn list_and_choose_are_the_oracles() {
    let mut rng = Rng::new(1);
    let (mut some, mut none) = (0, 0);
    for _ in 0..300 {
        let book = arbitrary::book(&mut rng, 40);
        let record = record_of(&book);
        for _ in 0..5 {
            let most = rng.pick(&[1, 3, 8, 32]);
            let task = arbitrary::task(&mut rng, book.device(), most);
            match compare(&record, task.bytes(), LIST_ROOM) {
                0.. => some += 1,
                _ => none += 1,
            }
        }
    }
    assert!(some > 500 && none > 50, "{some} {none}");
}

#[test]
fn fragmentation_is_the_oracles() {
    let mut rng = Rng::new(3);
    let (mut one, mut several, mut many) = (0, 0, 0);
    for index in 0..400 {
        let record = if index % 4 == 0 {
            record_of(&arbitrary::book(&mut rng, 40))
        } else {
            let device = arbitrary::device(&mut rng);
            let share = rng.pick(&[5, 20, 40, 60, 80]);
            scattered(&mut rng, &device, share)
        };
        match compare_fragmentation(&record)[0] {
            ..=1 => one += 1,
            2..=20 => several += 1,
            _ => many += 1,
        }
    }
    assert!(
        one > 40 && several > 40 && many > 40,
        "{one} {several} {many}"
    );
}

#[test]
fn refusals_are_the_oracles() {
    let mut rng = Rng::new(2);
    let mut refused = 0;
    for _ in 0..500 {
        let book = arbitrary::book(&mut rng, 10);
        let mut record = record_of(&book);
        if rng.percent(30) {
            arbitrary::damage(&mut rng, &mut record);
        }
        if rng.percent(10) {
            record.truncate(rng.below(record.len()));
        }
        let task = arbitrary::task_bytes(&mut rng, book.device(), 4);
        let output_bytes = rng.pick(&[0, LIST_ROOM - 1, LIST_ROOM, LIST_ROOM + 6]);
        compare(&record, &task, output_bytes);
        refused += usize::from(compare_fragmentation(&record)[0] < 0);
    }
    assert!(refused > 100, "{refused}");
}
