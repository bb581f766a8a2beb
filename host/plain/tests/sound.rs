//! The check of a record, compared with two others: one that rebuilds the record, task by task, and the oracle's.

use oracle::arbitrary;
use oracle::record::record_of;
use oracle::rng::Rng;
use oracle::sound::read;
use plain::layout::*;
use plain::record::{self, columns, running, Entry};
use plain::sound::is_sound;
use plain::task::Task;

/// Whether a record equals the one that its device and tasks make, entered one after the other.
fn is_rebuilt(bytes: &Record) -> bool {
    let rows = word(bytes, ROWS_AT);
    if columns(bytes) > MAX_COLUMNS || running(bytes) > MAX_RUNNING {
        return false;
    }
    let kinds = &bytes[KINDS_AT..KINDS_AT + columns(bytes)];
    if !record::device_ok(rows, kinds) {
        return false;
    }
    let mut scratch = [0; RECORD_SIZE];
    record::write_device(&mut scratch, rows, kinds);
    let entries = bytes[ENTRIES_AT..].chunks_exact(ENTRY_SIZE);
    let entered = entries
        .take(running(bytes))
        .all(|entry| enter(entry, &mut scratch).is_some());
    entered && scratch == *bytes
}

/// Enters the task of an entry behind the others, if it may stand there.
fn enter(entry: &[u8], scratch: &mut Record) -> Option<()> {
    let last = match running(scratch) {
        0 => 0,
        running => word(&scratch[entry_part(running - 1)], ENTRY_NUMBER_AT),
    };
    let number = word(entry, ENTRY_NUMBER_AT);
    let blocks = usize::from(entry[ENTRY_COUNT_AT]);
    if number <= last || !(1..=MAX_BLOCKS).contains(&blocks) {
        return None;
    }
    let bytes = &entry[BLOCKS_AT..BLOCKS_AT + BLOCK_SIZE * blocks];
    let task = Task::from_bytes(bytes)?;
    let (column, bottom) = (entry[ENTRY_COLUMN_AT], word(entry, ENTRY_BOTTOM_AT));
    if !record::fits(scratch, &task, u32::from(column), bottom as i32) {
        return None;
    }
    let entry = Entry {
        number,
        column: usize::from(column),
        bottom,
    };
    record::enter(scratch, running(scratch), entry, &task, bytes);
    Some(())
}

/// A block of one logic cell.
fn cell_block(column: u8, bottom: i16) -> [u8; BLOCK_SIZE] {
    let ([b, bb], [t, tt]) = (bottom.to_le_bytes(), (bottom + 2).to_le_bytes());
    [column, 0, b, bb, t, tt]
}

/// A full card of logic: 63 tasks of 32 cells, each a comb in one column, or a rake with a cell in each of 32.
fn full(is_comb: bool) -> Vec<u8> {
    let mut record = vec![0; RECORD_SIZE];
    assert_eq!(plain::new(&mut record, 128, &[0; MAX_COLUMNS]), 0);
    for index in 0..63 {
        let block = |tooth: i16| match is_comb {
            true => cell_block(0, 4 * tooth),
            false => cell_block(tooth as u8, 0),
        };
        let task: Vec<u8> = (0..32).flat_map(block).collect();
        let (column, bottom) = match is_comb {
            true => (index, 2 * (index as i32 % 2)),
            false => (index % 2, 4 * index as i32),
        };
        let placed = plain::place(&mut record, &task, 7 * (index + 1), column, bottom);
        assert_eq!(placed, 0);
    }
    record
}

/// Sound records: of random books, few and full ones, and the two with the most blocks.
fn sound_records(rng: &mut Rng, books: usize) -> Vec<Vec<u8>> {
    let mut all = vec![full(true), full(false)];
    for _ in 0..books {
        let calls = rng.pick(&[0, 3, 30, 120]);
        all.push(record_of(&arbitrary::book(rng, calls)));
    }
    all
}

/// How many records were found sound, and how many not.
#[derive(Debug, Default)]
struct Tally {
    sound: usize,
    unsound: usize,
}

impl Tally {
    /// Judges a record by the check and by its rebuilding, which must agree; the answer is the check's.
    fn judge(&mut self, bytes: &[u8], what: &str) -> bool {
        let record = bytes.try_into().expect("a record's length");
        let found = is_sound(record);
        assert_eq!(found, is_rebuilt(record), "{what}");
        match found {
            true => self.sound += 1,
            false => self.unsound += 1,
        }
        found
    }

    /// The same, and by the oracle.
    fn judge_by_all(&mut self, bytes: &[u8], what: &str) {
        let found = self.judge(bytes, what);
        assert_eq!(found, read(bytes).is_ok(), "{what}");
    }
}

#[test]
fn sound_records_are_found_sound() {
    let mut rng = Rng::new(14);
    let mut tally = Tally::default();
    for record in sound_records(&mut rng, 300) {
        tally.judge_by_all(&record, "a sound record");
    }
    assert_eq!((tally.sound, tally.unsound), (302, 0));
}

#[test]
fn single_bits_are_judged_alike() {
    let mut rng = Rng::new(15);
    let mut tally = Tally::default();
    for mut record in sound_records(&mut rng, 6) {
        // Every bit of the head and of the first entry, and bits all over.
        let head = (0..8 * INTERVALS_AT).chain(8 * ENTRIES_AT..8 * (ENTRIES_AT + ENTRY_SIZE));
        let others: Vec<usize> = (0..2_000).map(|_| rng.below(8 * RECORD_SIZE)).collect();
        for bit in head.chain(others) {
            record[bit / 8] ^= 1 << (bit % 8);
            tally.judge(&record, &format!("bit {bit}"));
            record[bit / 8] ^= 1 << (bit % 8);
        }
    }
    // Another number may leave a record sound.
    assert!(tally.sound > 20 && tally.unsound > 10_000, "{tally:?}");
}

#[test]
fn single_bytes_are_judged_alike() {
    let mut rng = Rng::new(16);
    let mut tally = Tally::default();
    for mut record in sound_records(&mut rng, 20) {
        for _ in 0..1_000 {
            let entry = entry_part(rng.below(MAX_RUNNING)).start;
            let at = match rng.below(4) {
                0 => entry + rng.below(BLOCKS_AT),
                1 => rng.below(INTERVALS_AT),
                _ => rng.below(RECORD_SIZE),
            };
            let old = record[at];
            record[at] = old.wrapping_add(rng.between(1, 255) as u8);
            tally.judge(&record, &format!("byte {at}"));
            record[at] = old;
        }
    }
    assert!(tally.sound > 10 && tally.unsound > 10_000, "{tally:?}");
}

/// Changes two bytes: they change places, or one rises as the other falls, or both are drawn; or two of an entry are
/// those of the entry before it.
fn damage_pair(rng: &mut Rng, record: &mut [u8]) {
    let part = rng.pick(&[KINDS_AT, COUNTS_AT, INTERVALS_AT, ENTRIES_AT, RECORD_SIZE]);
    let at = rng.below(part - 1);
    let other = (at + rng.pick(&[1, 2, 4, BLOCK_SIZE, ENTRY_SIZE])).min(RECORD_SIZE - 1);
    match rng.below(4) {
        0 => record.swap(at, other),
        1 => {
            let step = rng.pick(&[1, 2, 4, 5]);
            record[at] = record[at].wrapping_add(step);
            record[other] = record[other].wrapping_sub(step);
        }
        2 => (record[at], record[other]) = (rng.byte(), rng.byte()),
        _ => {
            let entry = entry_part(rng.below(MAX_RUNNING - 1)).start;
            let at = entry + rng.pick(&[ENTRY_NUMBER_AT, ENTRY_COLUMN_AT, ENTRY_BOTTOM_AT]);
            record.copy_within(at..at + 2, at + ENTRY_SIZE);
        }
    }
}

#[test]
fn pairs_of_bytes_are_judged_alike() {
    let mut rng = Rng::new(17);
    let mut tally = Tally::default();
    for record in sound_records(&mut rng, 20) {
        for _ in 0..1_000 {
            let mut damaged = record.clone();
            damage_pair(&mut rng, &mut damaged);
            tally.judge(&damaged, "two bytes");
        }
    }
    assert!(tally.sound > 1_000 && tally.unsound > 5_000, "{tally:?}");
}

#[test]
fn likely_damage_is_judged_alike_by_all() {
    let mut rng = Rng::new(18);
    let mut tally = Tally::default();
    for record in sound_records(&mut rng, 40) {
        for _ in 0..100 {
            let mut damaged = record.clone();
            arbitrary::damage(&mut rng, &mut damaged);
            tally.judge_by_all(&damaged, "one to three bytes");
        }
    }
    assert!(tally.sound > 100 && tally.unsound > 1_000, "{tally:?}");
}

/// A card of 3 rows with two columns of logic, and a task on it whose second block has taken no cells.
fn with_second_block(bottom: i32, second: [u8; BLOCK_SIZE]) -> Vec<u8> {
    let mut record = vec![0; RECORD_SIZE];
    assert_eq!(plain::new(&mut record, 3, &[0, 0]), 0);
    let placed = plain::place(&mut record, &cell_block(0, 0), 1, 0, bottom);
    assert_eq!(placed, 0);
    let entry = entry_part(0).start;
    record[entry + ENTRY_COUNT_AT] = 2;
    let at = entry + BLOCKS_AT + BLOCK_SIZE;
    record[at..at + BLOCK_SIZE].copy_from_slice(&second);
    record
}

#[test]
fn a_block_off_the_device_is_not_sound_though_it_takes_no_cells() {
    let mut tally = Tally::default();
    for bottom in [0, 2, 4] {
        for second in [
            // Behind the last column, at every height.
            cell_block(2, 0),
            cell_block(63, -2),
            // Below the lowest half row, and above the highest.
            cell_block(1, -2 - bottom as i16),
            cell_block(1, -4 - bottom as i16),
            cell_block(1, 6 - bottom as i16),
            cell_block(1, 250 - bottom as i16),
            cell_block(0, 6),
        ] {
            let record = with_second_block(bottom, second);
            tally.judge_by_all(&record, &format!("{second:?} at {bottom}"));
        }
    }
    assert_eq!((tally.sound, tally.unsound), (0, 21));
}

/// A card of mixed columns, as many blocks on it as can be: a comb in each column, one of logic up to the last cell.
fn crowded() -> Vec<u8> {
    let mut record = vec![0; RECORD_SIZE];
    let kinds = [0, 1, 0, 2].repeat(16);
    assert_eq!(plain::new(&mut record, 128, &kinds), 0);
    for (column, &kind) in (0..).zip(&kinds) {
        let height = height(kind) as i16;
        let (teeth, apart) = if kind == 0 { (32, 4) } else { (25, 2) };
        let tooth = |k: i16| {
            let ([b, bb], [t, tt]) = (
                (height * apart * k).to_le_bytes(),
                (height * (apart * k + 1)).to_le_bytes(),
            );
            [0, kind, b, bb, t, tt]
        };
        let comb: Vec<u8> = (0..teeth).flat_map(tooth).collect();
        let bottom = if kind == 0 { 6 } else { 5 };
        let placed = plain::place(&mut record, &comb, 900 * column + 1, column, bottom);
        assert_eq!(placed, 0);
    }
    record
}

#[test]
fn every_byte_of_a_crowded_record_is_judged_alike_by_all() {
    let mut rng = Rng::new(19);
    let mut tally = Tally::default();
    let mut record = crowded();
    tally.judge_by_all(&record, "as it was");
    for at in 0..RECORD_SIZE {
        let old = record[at];
        record[at] = match rng.below(3) {
            0 => old ^ (1 << rng.below(8)),
            1 => old.wrapping_add(rng.pick(&[1, 255])),
            _ => old ^ rng.between(1, 255) as u8,
        };
        tally.judge_by_all(&record, &format!("byte {at}: {old} to {}", record[at]));
        record[at] = old;
    }
    // No byte but the two of a task's number can change alone, and the record as it was is sound too.
    assert!((20..=129).contains(&tally.sound), "{tally:?}");
}

#[test]
fn every_value_of_the_bytes_on_which_others_depend_is_judged_alike() {
    let mut tally = Tally::default();
    for mut record in [full(true), full(false), crowded()] {
        let last = running(record[..].try_into().expect("a record's length")) - 1;
        let head = [
            ROWS_AT,
            ROWS_AT + 1,
            COLUMNS_AT,
            RUNNING_AT,
            KINDS_AT,
            COUNTS_AT,
        ];
        let entries = [0, last].map(|index| entry_part(index).start);
        let of_entries = entries
            .into_iter()
            .flat_map(|start| start..start + BLOCKS_AT + 2 * BLOCK_SIZE);
        for at in head.into_iter().chain(of_entries) {
            let old = record[at];
            for value in 0..=255 {
                record[at] = value;
                tally.judge(&record, &format!("byte {at} is {value}"));
            }
            record[at] = old;
        }
    }
    assert!(tally.sound > 500 && tally.unsound > 20_000, "{tally:?}");
}

/// The blocks' bytes of a running task.
fn blocks_of(record: &mut [u8], index: usize) -> &mut [[u8; BLOCK_SIZE]] {
    let entry = &mut record[entry_part(index)];
    let count = usize::from(entry[ENTRY_COUNT_AT]);
    let end = BLOCKS_AT + BLOCK_SIZE * count;
    entry[BLOCKS_AT..end].as_chunks_mut().0
}

/// Adds to the bottom and the top of a block.
fn lift(block: &mut [u8; BLOCK_SIZE], by: u32) {
    for at in [2, 4] {
        let lifted = word(block, at) + by;
        put_word(block, at, lifted);
    }
}

/// A change after which the running tasks hold the same cells as before.
type Change = fn(&mut [u8]);

#[test]
fn the_same_cells_in_another_form_are_not_sound() {
    let changes: [(&str, Change); 7] = [
        ("blocks exchanged", |record| blocks_of(record, 1).swap(1, 2)),
        ("the first bottom is not 0", |record| {
            blocks_of(record, 1)
                .iter_mut()
                .for_each(|block| lift(block, 2));
            let entry = &mut record[entry_part(1)];
            let bottom = word(entry, ENTRY_BOTTOM_AT);
            put_word(entry, ENTRY_BOTTOM_AT, bottom - 2);
        }),
        ("the first column is not 0", |record| {
            blocks_of(record, 1)
                .iter_mut()
                .for_each(|block| block[0] += 1);
            record[entry_part(1)][ENTRY_COLUMN_AT] -= 1;
        }),
        ("a block in two that touch", |record| {
            let entry = &mut record[entry_part(0)];
            entry[ENTRY_COUNT_AT] += 1;
            let blocks = blocks_of(record, 0);
            blocks.copy_within(0..2, 1);
            put_word(&mut blocks[0], 4, 2);
            put_word(&mut blocks[1], 2, 2);
        }),
        ("two numbers are equal", |record| {
            record.copy_within(
                entry_part(0).start..entry_part(0).start + 2,
                entry_part(1).start,
            )
        }),
        ("a task is there twice", |record| {
            record[RUNNING_AT] += 1;
            record.copy_within(entry_part(1), entry_part(2).start);
            put_word(&mut record[entry_part(2)], ENTRY_NUMBER_AT, 9);
        }),
        ("a task has no blocks", |record| {
            record[RUNNING_AT] += 1;
            put_word(&mut record[entry_part(2)], ENTRY_NUMBER_AT, 9);
        }),
    ];
    let mut record = vec![0; RECORD_SIZE];
    assert_eq!(plain::new(&mut record, 30, &[0, 0, 0]), 0);
    let two_cells = [0, 0, 0, 0, 4, 0, 1, 0, 0, 0, 2, 0];
    assert_eq!(plain::place(&mut record, &two_cells, 5, 0, 0), 0);
    let comb: Vec<u8> = (0..4).flat_map(|k| cell_block(0, 4 * k)).collect();
    assert_eq!(plain::place(&mut record, &comb, 7, 1, 4), 0);
    let mut tally = Tally::default();
    tally.judge_by_all(&record, "as it was");
    for (what, change) in changes {
        let mut record = record.clone();
        change(&mut record);
        tally.judge_by_all(&record, what);
    }
    assert_eq!((tally.sound, tally.unsound), (1, 7));
}
