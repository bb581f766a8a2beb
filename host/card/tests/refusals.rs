//! Every refusal that a call gives, −1 to −11, through the types and through the bytes; the record stays as it was.

use card::{bytes, outcome, Card, Device, Kind, Position, Refusal, Task};
use card::{LIST_ROOM, MAX_COLUMNS, MAX_RUNNING, RECORD_SIZE};

const ORIGIN: Position = Position {
    column: 0,
    bottom: 0,
};

/// A card of one column of logic with five cells.
fn small_card() -> Card {
    Card::new(&Device::new(5, &[Kind::C]).expect("a device"))
}

/// One cell of logic.
fn cell() -> Task {
    Task::of(Kind::C, 2)
}

/// Fragmentation of bytes that must be refused so; its two numbers are 0 then, whatever they were.
fn fragmentation_refused(bytes: &[u8], wanted: Refusal) {
    let (mut free, mut degree) = (77, -77);
    let answer = bytes::fragmentation(bytes, &mut free, &mut degree);
    assert_eq!((answer, free, degree), (wanted.number(), 0, 0));
}

/// Makes a call that must be refused so, and the record must stay.
fn refused<T>(
    card: &mut Card,
    wanted: Refusal,
    call: impl FnOnce(&mut Card) -> Result<T, Refusal>,
) {
    let before = card.clone();
    assert_eq!(call(card).err(), Some(wanted));
    assert_eq!(*card, before);
}

#[test]
fn numbers_follow_the_table() {
    for (index, refusal) in Refusal::ALL.into_iter().enumerate() {
        assert_eq!(refusal.number(), -1 - index as i32);
        assert_eq!(Refusal::from_number(refusal.number()), Some(refusal));
        assert_eq!(outcome(refusal.number()), Err(refusal));
        let shown = refusal.to_string();
        assert!(shown.ends_with(&format!("({})", refusal.number())));
    }
    assert_eq!(Refusal::from_number(0), None);
    assert_eq!(Refusal::from_number(-13), None);
}

#[test]
fn bytes_of_another_length() {
    let device = *small_card().device();
    for length in [0, 1, RECORD_SIZE - 1, RECORD_SIZE + 1] {
        let mut bytes = vec![0xA5; length];
        let made = Card::new_in(&mut bytes, &device);
        assert_eq!(made.err(), Some(Refusal::RecordLength));
        let opened = Card::open(&bytes);
        assert_eq!(opened.err(), Some(Refusal::RecordLength));
        fragmentation_refused(&bytes, Refusal::RecordLength);
        assert_eq!(bytes, vec![0xA5; length]);
    }
}

#[test]
fn bytes_that_are_not_sound() {
    let good = small_card().into_bytes();
    // Rows, columns, running tasks, a kind, an interval count, an interval, the last byte.
    for at in [0, 2, 3, 4, 68, 132, RECORD_SIZE - 1] {
        let mut bytes = good.clone();
        bytes[at] ^= 0x80;
        assert_eq!(Card::open(&bytes).err(), Some(Refusal::RecordNotSound));
        assert_eq!(bytes::release(&mut bytes, 1), -2);
        fragmentation_refused(&bytes, Refusal::RecordNotSound);
    }
    assert!(Card::open(&good).is_ok());
}

#[test]
fn no_such_device_or_column() {
    let wanted = Err(Refusal::DeviceOrColumn);
    for (rows, columns) in [
        (0, 1),
        (129, 1),
        (u16::MAX, 1),
        (5, 0),
        (5, MAX_COLUMNS + 1),
    ] {
        let kinds = vec![Kind::D; columns];
        assert_eq!(Device::new(rows, &kinds), wanted);
    }
    assert_eq!(Kind::try_from('X'), Err(Refusal::DeviceOrColumn));
    for column in [1, 64, 255] {
        refused(&mut small_card(), Refusal::DeviceOrColumn, |card| {
            card.interval_count(column)
        });
        let card = small_card();
        let found = card.intervals(column).map(|_| ());
        assert_eq!(found, Err(Refusal::DeviceOrColumn));
    }
}

#[test]
fn tasks_of_no_length() {
    let cells = |count: i16| {
        (0..count).fold(Task::builder(), |task, index| {
            task.block(0, Kind::C, 4 * index, 4 * index + 2)
        })
    };
    for count in [0, 33, 34, 100] {
        assert_eq!(cells(count).build(), Err(Refusal::TaskLength));
    }
    for count in [1, 32] {
        assert!(cells(count).build().is_ok());
    }
    for length in [0, 1, 5, 7, 191, 193, 198] {
        assert_eq!(Task::from_bytes(&vec![0; length]), Err(Refusal::TaskLength));
    }
    assert_eq!(Task::from_blocks(&[]), Err(Refusal::TaskLength));
    let mut record = small_card().into_bytes();
    assert_eq!(bytes::place(&mut record, &[0; 7], 1, 0, 0), -4);
}

#[test]
fn tasks_that_are_not_well_formed() {
    // A half cell, a block of no height, and one that does not start at column 0.
    let aside = Task::builder().block(1, Kind::C, 0, 2).build();
    let tasks = [
        Task::of(Kind::B, 4),
        Task::of(Kind::C, 0),
        aside.expect("one block"),
    ];
    for task in tasks {
        let card = &mut small_card();
        let wanted = Refusal::TaskNotWellFormed;
        refused(card, wanted, |card| card.place(&task, 1, ORIGIN));
        refused(card, wanted, |card| card.choose(&task));
        let mut output = [7; LIST_ROOM];
        refused(card, wanted, |card| {
            card.list(&task, &mut output).map(|_| ())
        });
        assert_eq!(output, [7; LIST_ROOM]);
    }
    let no_kind = Task::from_bytes(&[0, 3, 0, 0, 2, 0]);
    assert_eq!(no_kind, Err(Refusal::TaskNotWellFormed));
}

#[test]
fn outputs_that_are_too_short() {
    let card = &mut small_card();
    let mut output = [7; LIST_ROOM - 1];
    refused(card, Refusal::OutputShort, |card| {
        card.list(&cell(), &mut output).map(|_| ())
    });
    assert_eq!(output, [7; LIST_ROOM - 1]);
}

#[test]
fn numbers_that_are_bad() {
    let card = &mut small_card();
    card.place(&cell(), 7, ORIGIN).expect("it fits");
    let above = Position {
        bottom: 2,
        ..ORIGIN
    };
    for number in [0, 7] {
        refused(card, Refusal::BadNumber, |card| {
            card.place(&cell(), number, above)
        });
    }
    let mut record = card.clone().into_bytes();
    assert_eq!(
        bytes::place(&mut record, cell().as_bytes(), 65_536 + 8, 0, 2),
        -7
    );
    assert_eq!(record, card.clone().into_bytes());
}

#[test]
fn a_task_too_many() {
    let card = &mut Card::new(&Device::new(128, &[Kind::C]).expect("a device"));
    for number in 1..=MAX_RUNNING as u16 {
        let best = card.choose(&cell()).expect("there is room");
        card.place(&cell(), number, best).expect("it fits");
    }
    let best = card.choose(&cell()).expect("there is room");
    refused(card, Refusal::Full, |card| card.place(&cell(), 1000, best));
}

#[test]
fn tasks_without_a_position() {
    let tall = Task::of(Kind::C, 12);
    let card = &mut small_card();
    refused(card, Refusal::NoPosition, |card| card.choose(&tall));
    let mut output = [7; LIST_ROOM];
    refused(card, Refusal::NoPosition, |card| {
        card.list(&tall, &mut output).map(|_| ())
    });
    assert_eq!(output, [7; LIST_ROOM]);
}

#[test]
fn positions_that_do_not_fit() {
    let card = &mut small_card();
    card.place(
        &cell(),
        7,
        Position {
            bottom: 4,
            ..ORIGIN
        },
    )
    .expect("it fits");
    let positions = [
        (0, 1),
        (0, 4),
        (0, -2),
        (0, 10),
        (0, i16::MIN),
        (1, 0),
        (255, i16::MAX),
    ];
    for (column, bottom) in positions {
        let position = Position { column, bottom };
        refused(card, Refusal::Misfit, |card| {
            card.place(&cell(), 8, position)
        });
    }
}

#[test]
fn numbers_that_do_not_run() {
    let card = &mut small_card();
    card.place(&cell(), 7, ORIGIN).expect("it fits");
    for number in [0, 1, 8, u16::MAX] {
        refused(card, Refusal::NotRunning, |card| card.release(number));
    }
    let mut record = card.clone().into_bytes();
    assert_eq!(bytes::release(&mut record, 65_536 + 7), -11);
}
