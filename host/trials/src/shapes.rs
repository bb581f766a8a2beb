//! What the user could not test: shapes with a 2-step and a 5-step together, a
//! release between two free stretches after any history, and "no position".

use calls::Calls;
use oracle::arbitrary::{self, Mood};
use oracle::history::Call;
use oracle::listing::LIST_ROOM;
use oracle::rng::Rng;
use oracle::task::{bytes_of, Block};
use oracle::{Book, Device, Kind, Position};

use crate::histories::{any_device, small_device};
use crate::pair::Pair;
use crate::Trial;

/// A block of so many cells.
pub fn block(column: u8, kind: Kind, bottom: i16, cells: i16) -> Block {
    Block {
        column,
        kind,
        bottom,
        top: bottom + cells * kind.height() as i16,
    }
}

/// A list call with room enough.
pub fn list_call(task: &[u8]) -> Call {
    Call::List {
        task: task.to_vec(),
        output_bytes: LIST_ROOM,
        fill: 0x3C,
    }
}

/// A choose call.
pub fn choose_call(task: &[u8]) -> Call {
    Call::Choose {
        task: task.to_vec(),
    }
}

/// A place call.
pub fn place_call(task: &[u8], number: u32, at: Position) -> Call {
    Call::Place {
        task: task.to_vec(),
        number,
        column: at.column,
        bottom: at.bottom,
    }
}

/// The lowest number that is not running.
pub fn unused_number(book: &Book) -> u32 {
    let is_unused = |number: &u16| !book.running().contains_key(number);
    u32::from((1..).find(is_unused).expect("at most 64 are running"))
}

/// The book of a device after up to so many calls that place and release small tasks.
pub fn used_card(rng: &mut Rng, device: Device, most_calls: usize) -> Book {
    let mut book = Book::on(device);
    let mood = Mood {
        place: 70,
        ask: 0,
        odd: 0,
        blocks: 2,
    };
    for _ in 0..rng.below(most_calls + 1) {
        arbitrary::call(rng, &book, mood).on_book(&mut book);
    }
    book
}

/// Blocks of two heights in neighbouring columns, the second at every offset: two of them in several
/// sizes, and three of them.
pub fn mixed_tasks(first: Kind, second: Kind) -> Vec<Vec<u8>> {
    let two = |offset, lower, upper| {
        let blocks = [block(0, first, 0, lower), block(1, second, offset, upper)];
        blocks.to_vec()
    };
    let with_third = |offset| {
        // On the grid of the first, or the three would fit nowhere.
        let third = block(2, first, 2 * first.height() as i16, 1);
        [two(offset, 1, 1), vec![third]].concat()
    };
    let shapes = |offset| {
        let twos = [(1, 1), (3, 1), (1, 2)].map(|(lower, upper)| two(offset, lower, upper));
        twos.into_iter().chain([with_third(offset)])
    };
    let tasks = (-13..=13).flat_map(shapes);
    tasks.map(|blocks| bytes_of(&blocks)).collect()
}

/// Lists, chooses, places and releases shapes of two steps on cards with held cells.
///
/// Answers how many of them had a position.
pub fn mixed_steps(subject: &dyn Calls, seed: u64, cards: usize) -> Trial<usize> {
    let mut rng = Rng::new(seed);
    let mut fitting = 0;
    for _ in 0..cards {
        let kinds = rng.pick(&[&[0, 1][..], &[1, 0], &[0, 2, 0], &[2, 0, 1, 0]]);
        let rows = rng.between(3, 30) as u32;
        let device = Device::new(rows, kinds).expect("the limits are kept");
        let book = used_card(&mut rng, device, 8);
        let pair = Pair::on_book(subject, book);
        let (first, second) = rng.pick(&[
            (Kind::C, Kind::B),
            (Kind::B, Kind::C),
            (Kind::C, Kind::D),
            (Kind::D, Kind::C),
        ]);
        for task in mixed_tasks(first, second) {
            fitting += usize::from(comes_and_goes(&pair, &task)?);
        }
    }
    Ok(fitting)
}

/// Lists and chooses a task, then places it where choose says and takes it out again.
pub fn comes_and_goes(pair: &Pair, task: &[u8]) -> Trial<bool> {
    let mut pair = pair.clone();
    let listed = pair.call(&list_call(task))?;
    let chosen = pair.call(&choose_call(task))?;
    if listed < 0 {
        return Ok(false);
    }
    let number = unused_number(pair.book());
    pair.call(&place_call(task, number, Position::of_answer(chosen)))?;
    pair.call(&list_call(task))?;
    pair.call(&Call::Release { number })?;
    pair.call(&list_call(task))?;
    Ok(true)
}

/// After any history: three cells in a row held one by one, and released in every order.
///
/// Answers how many releases joined the free cells on both sides.
pub fn release_between(subject: &dyn Calls, seed: u64, count: usize) -> Trial<usize> {
    let mut rng = Rng::new(seed);
    let mut joined = 0;
    for _ in 0..count {
        let device = any_device(&mut rng);
        let book = used_card(&mut rng, device, 30);
        let column = rng.below(book.device().columns());
        let Some(kind) = book.device().kind(column) else {
            continue;
        };
        let wide = |interval: &oracle::cells::Interval| interval.height() >= 3 * kind.height();
        let Some(interval) = book.intervals(column).into_iter().find(wide) else {
            continue;
        };
        let spare = interval.height() / kind.height() - 3;
        let bottom = interval.bottom + kind.height() * rng.between(0, spare);
        let pair = Pair::on_book(subject, book);
        for order in [
            [0, 1, 2],
            [0, 2, 1],
            [1, 0, 2],
            [1, 2, 0],
            [2, 0, 1],
            [2, 1, 0],
        ] {
            joined += three_in_a_row(pair.clone(), kind, column, bottom as i32, order)?;
        }
    }
    Ok(joined)
}

/// Places three cells in a row and releases them in an order; answers how many releases joined both sides.
fn three_in_a_row(
    mut pair: Pair,
    kind: Kind,
    column: usize,
    bottom: i32,
    order: [usize; 3],
) -> Trial<usize> {
    let task = bytes_of(&[block(0, kind, 0, 1)]);
    let mut numbers = [0; 3];
    for (index, number) in numbers.iter_mut().enumerate() {
        *number = unused_number(pair.book());
        let at = Position {
            column: column as u32,
            bottom: bottom + index as i32 * kind.height() as i32,
        };
        pair.call(&place_call(&task, *number, at))?;
    }
    let mut joined = 0;
    for index in order {
        let before = pair.book().intervals(column).len();
        let number = numbers[index];
        pair.call(&Call::Release { number })?;
        let after = pair.book().intervals(column).len();
        joined += usize::from(after < before);
    }
    Ok(joined)
}

/// Fills small cards cell by cell, asking before each placement for tasks of many sizes.
///
/// Answers how many questions had a position and how many had none.
pub fn no_position(subject: &dyn Calls, seed: u64, cards: usize) -> Trial<(usize, usize)> {
    let mut rng = Rng::new(seed);
    let (mut some, mut none) = (0, 0);
    for _ in 0..cards {
        let device = small_device(&mut rng);
        let mut pair = Pair::new(subject, device)?;
        for _ in 0..70 {
            let task = arbitrary::task(&mut rng, pair.book().device(), 3);
            let listed = pair.call(&list_call(task.bytes()))?;
            pair.call(&choose_call(task.bytes()))?;
            match listed {
                0.. => some += 1,
                _ => none += 1,
            }
            if !fill_more(&mut rng, &mut pair)? {
                break;
            }
        }
    }
    Ok((some, none))
}

/// Places a block of one to three cells where choose says; answers whether it found a place.
fn fill_more(rng: &mut Rng, pair: &mut Pair) -> Trial<bool> {
    let kinds = pair.book().device().kinds().to_vec();
    let kind = rng.pick(&kinds);
    // Tried from the largest down, so that a card without a place for the last is full in this kind.
    for cells in [3, 2, 1] {
        let task = bytes_of(&[block(0, kind, 0, cells)]);
        let chosen = pair.call(&choose_call(&task))?;
        if chosen >= 0 {
            let number = unused_number(pair.book());
            return Ok(pair.call(&place_call(&task, number, Position::of_answer(chosen)))? == 0);
        }
    }
    // Another kind may still have room.
    Ok(rng.percent(90))
}
