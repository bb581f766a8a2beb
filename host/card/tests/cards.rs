//! Cards in bytes of their own and in bytes that are lent, and what can be read from them.

use std::cell::Cell;
use std::panic::{catch_unwind, AssertUnwindSafe};

use card::layout::RUNNING_AT;
use card::{
    bytes, Card, Device, DeviceFault, Interval, Kind, Position, Range, Refusal, Running, Task,
};
use card::{LIST_ROOM, MAX_COLUMNS, RECORD_SIZE};

const AT_FOUR: Position = Position::new(0, 4);

/// Document 01's example: 5 rows, CCB.
fn device() -> Device {
    Device::new(5, &[Kind::C, Kind::C, Kind::B]).expect("a device")
}

/// Its task of three blocks.
fn three_blocks() -> Task {
    let task = Task::builder()
        .block(0, Kind::C, 0, 2)
        .block(1, Kind::C, -2, 2)
        .block(2, Kind::B, 1, 6);
    task.build().expect("three blocks")
}

#[test]
fn the_same_calls_on_owned_and_lent_bytes() {
    let mut owned = Card::new(&device());
    let mut record = [0xA5; RECORD_SIZE];
    let mut lent = Card::new_in(&mut record[..], &device()).expect("a record's length");
    assert_eq!(owned, lent);
    for change in [
        owned.place(&three_blocks(), 7, AT_FOUR),
        lent.place(&three_blocks(), 7, AT_FOUR),
    ] {
        assert_eq!(change, Ok(()));
    }
    assert_eq!(owned, lent);
    assert_eq!(owned.release(7), Ok(()));
    assert_ne!(owned, lent);
    // What was lent has the card, and can be lent again, for reading alone too.
    assert_eq!(lent.into_bytes().len(), RECORD_SIZE);
    let reading = Card::open(&record[..]).expect("a sound record");
    assert_eq!(reading.running().len(), 1);
    let mut again = Card::open(&mut record).expect("a sound record");
    assert_eq!(again.release(7), Ok(()));
    assert_eq!(again, owned);
}

#[test]
fn a_card_is_the_record_of_the_bytes_calls() {
    let mut record = vec![0; RECORD_SIZE];
    assert_eq!(bytes::new(&mut record, 5, &[0, 0, 1]), 0);
    let task = three_blocks();
    assert_eq!(bytes::place(&mut record, task.as_bytes(), 7, 0, 4), 0);
    let mut card = Card::new(&device());
    assert_eq!(card.place(&task, 7, AT_FOUR), Ok(()));
    assert_eq!(card.as_bytes(), record);
    assert_eq!(card.into_bytes()[..], record);
}

#[test]
fn what_a_card_holds() {
    let mut card = Card::new(&device());
    card.place(&three_blocks(), 65_535, AT_FOUR)
        .expect("it fits");
    let small = Task::of(Kind::C, 4);
    let origin = card.choose(&small).expect("there is room");
    card.place(&small, 8, origin).expect("it fits");
    let running: Vec<Running> = card.running().collect();
    let wanted = [(8, origin, small), (65_535, AT_FOUR, three_blocks())];
    let wanted = wanted.map(|(number, position, task)| Running {
        number,
        position,
        task,
    });
    assert_eq!(running, wanted);
    let interval = |bottom, top| Interval { bottom, top };
    let free = |column| -> Vec<Interval> { card.intervals(column).expect("a column").collect() };
    assert_eq!(free(0), [interval(6, 10)]);
    assert_eq!(free(1), [interval(0, 2), interval(6, 10)]);
    assert_eq!(free(2), [interval(0, 5)]);
    assert_eq!(card.interval_count(1), Ok(2));
    let within: Vec<i16> = (-1..11).filter(|&y| interval(6, 10).contains(y)).collect();
    assert_eq!(within, [6, 7, 8, 9]);
    let opened = Card::open(card.as_bytes()).expect("a sound record");
    assert_eq!(opened.device(), &device());
}

#[test]
fn intervals_are_a_part_of_the_record() {
    let card = Card::new(&device());
    let mut column = card.intervals(2).expect("a column");
    // Two pointers into the record, and no copy.
    assert_eq!(size_of_val(&column), size_of::<&[u8]>());
    assert_eq!(column.len(), 1);
    assert_eq!(column.next_back(), Some(Interval { bottom: 0, top: 10 }));
    assert_eq!(column.next(), None);
}

#[test]
fn a_listing_is_read_from_both_ends() {
    let mut card = Card::new(&device());
    card.place(&three_blocks(), 7, AT_FOUR).expect("it fits");
    let mut output = [0; LIST_ROOM];
    let small = Task::of(Kind::C, 4);
    let mut ranges = card.list(&small, &mut output).expect("it fits somewhere");
    let bounds = |range: Range| (range.column, range.first, range.last);
    assert_eq!(ranges.len(), 3);
    assert_eq!(ranges.clone().nth(1).map(bounds), Some((0, 6, 6)));
    assert_eq!(ranges.next().map(bounds), Some((0, 0, 0)));
    assert_eq!(ranges.next_back().map(bounds), Some((1, 6, 6)));
    assert_eq!(ranges.len(), 1);
    assert_eq!(ranges.next().map(bounds), Some((0, 6, 6)));
    assert_eq!(ranges.next(), None);
}

#[test]
fn positions_of_a_range() {
    let bottoms = |step, first, last| -> Vec<i16> {
        let range = Range {
            column: 3,
            step,
            first,
            last,
        };
        let mut back: Vec<Position> = range.positions().rev().collect();
        back.reverse();
        let positions: Vec<Position> = range.positions().collect();
        assert_eq!(positions, back);
        assert_eq!(positions.len(), range.positions().len());
        assert!(positions.iter().all(|position| position.column == 3));
        positions.iter().map(|position| position.bottom).collect()
    };
    assert_eq!(bottoms(2, 4, 10), [4, 6, 8, 10]);
    assert_eq!(bottoms(10, 5, 5), [5]);
    // A lone position may come with step 0.
    assert_eq!(bottoms(0, 4, 4), [4]);
    // No range of a listing, but neither loops nor panics.
    assert_eq!(bottoms(5, 1, 0), []);
    assert_eq!(bottoms(255, 32_000, i16::MAX).len(), 4);
    assert_eq!(bottoms(0, i16::MIN, i16::MAX).len(), 65_536);
}

#[test]
fn cells_of_a_column() {
    let device = Device::new(128, &Kind::ALL).expect("a device");
    let cells: Vec<u16> = (0..4).map(|column| device.cells(column)).collect();
    assert_eq!(cells, [128, 51, 51, 0]);
    assert_eq!(device.kind(3), None);
    let letters: String = device.kinds().iter().map(|kind| kind.letter()).collect();
    assert_eq!(letters, "CBD");
}

#[test]
fn devices_from_a_text() {
    let wanted = Device::new(128, &Kind::ALL).map_err(|_| DeviceFault::Rows(128));
    assert_eq!(Device::from_text(128, "CBD"), wanted);
    let widest = Device::from_text(1, &"D".repeat(MAX_COLUMNS)).expect("64 columns");
    assert_eq!(widest.kinds(), [Kind::D; MAX_COLUMNS]);
    let fault = |rows, kinds: &str| Device::from_text(rows, kinds).expect_err("a fault");
    let letter = |column, letter| DeviceFault::Letter { column, letter };
    // The rows go first, then the number of letters, then the letters.
    assert_eq!(fault(0, "X"), DeviceFault::Rows(0));
    assert_eq!(fault(129, ""), DeviceFault::Rows(129));
    assert_eq!(fault(128, ""), DeviceFault::Columns(0));
    assert_eq!(fault(1, &"é".repeat(65)), DeviceFault::Columns(65));
    assert_eq!(fault(1, &"é".repeat(64)), letter(0, 'é'));
    assert_eq!(fault(1, "CcB"), letter(1, 'c'));
    assert_eq!(fault(1, "CB "), letter(2, ' '));
    assert_eq!(fault(1, "0"), letter(0, '0'));
    let shown = [fault(129, "C"), fault(1, ""), fault(1, "C\n")].map(|fault| fault.to_string());
    assert_eq!(
        shown[..2],
        ["129 rows, not 1 to 128", "0 columns, not 1 to 64"]
    );
    assert_eq!(shown[2], "column 1 is '\\n', which is none of C, B and D");
}

#[test]
fn a_running_task_with_fields_that_no_card_has() {
    let far = Running {
        number: 0,
        position: Position::new(255, i16::MAX),
        task: Task::of(Kind::C, i16::MAX),
    };
    assert!(far.holds(255, i16::MAX) && !far.holds(255, i16::MIN) && !far.holds(0, i16::MAX));
}

/// A record that somebody else writes while a card has it.
struct Written<'a> {
    before: &'a [u8],
    after: &'a [u8],
    is_written: &'a Cell<bool>,
}

impl AsRef<[u8]> for Written<'_> {
    fn as_ref(&self) -> &[u8] {
        match self.is_written.get() {
            true => self.after,
            false => self.before,
        }
    }
}

#[test]
fn bytes_that_somebody_else_wrote() {
    let before = Card::new(&device()).into_bytes();
    // More than 64 tasks, and one without a block.
    for count in [65, 1] {
        let mut after = before.clone();
        after[RUNNING_AT] = count;
        let is_written = Cell::new(false);
        let card = Card::open(Written {
            before: &before,
            after: &after,
            is_written: &is_written,
        });
        let card = card.expect("a sound record");
        is_written.set(true);
        // The calls refuse such bytes; what reads the running tasks panics, as it says.
        let refused = Some(Refusal::RecordNotSound);
        assert_eq!(card.choose(&three_blocks()).err(), refused);
        assert_eq!(card.intervals(0).err(), refused);
        assert_eq!(card.fragmentation().err(), refused);
        let panics = |read: &dyn Fn() -> bool| catch_unwind(AssertUnwindSafe(read)).is_err();
        assert!(panics(&|| card.running().next().is_some()));
        assert!(panics(&|| card.running_task(7).is_some()));
        assert!(panics(&|| card.running_at(0, 4).is_some()));
        assert!(panics(&|| card.to_string().is_empty()));
    }
}
