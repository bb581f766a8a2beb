//! Random calls of a history, for a card whose book is known.

use crate::arbitrary::{task, task_bytes};
use crate::book::Book;
use crate::fit::{fitting_positions, Position};
use crate::history::Call;
use crate::listing::LIST_ROOM;
use crate::rng::Rng;
use crate::task::{Task, MAX_BLOCKS};

/// What a history is inclined to, drawn once for each history.
#[derive(Clone, Copy, Debug)]
pub struct Mood {
    /// Of a hundred calls that change the card, so many place.
    pub place: usize,
    /// Of a hundred calls, so many list or choose.
    pub ask: usize,
    /// Of a hundred arguments, so many are odd.
    pub odd: usize,
    /// The most blocks of a task.
    pub blocks: usize,
}

/// A random mood.
pub fn mood(rng: &mut Rng) -> Mood {
    Mood {
        place: rng.pick(&[45, 50, 60, 90]),
        ask: rng.pick(&[10, 30, 60]),
        odd: rng.pick(&[2, 10, 30]),
        blocks: rng.pick(&[1, 1, 3, 8, MAX_BLOCKS]),
    }
}

/// A random call.
pub fn call(rng: &mut Rng, book: &Book, mood: Mood) -> Call {
    if rng.percent(mood.ask) {
        return ask(rng, book, mood);
    }
    if rng.percent(mood.place) {
        place(rng, book, mood)
    } else {
        release(rng, book, mood)
    }
}

/// A list or a choose call.
fn ask(rng: &mut Rng, book: &Book, mood: Mood) -> Call {
    let task = call_task(rng, book, mood);
    if rng.percent(40) {
        return Call::Choose { task };
    }
    let odd_length = [0, 6, LIST_ROOM - 1, LIST_ROOM + 1, LIST_ROOM + 100];
    let output_bytes = if rng.percent(mood.odd) {
        rng.pick(&odd_length)
    } else {
        LIST_ROOM
    };
    let fill = rng.byte();
    Call::List {
        task,
        output_bytes,
        fill,
    }
}

/// A place call: mostly where the task fits.
fn place(rng: &mut Rng, book: &Book, mood: Mood) -> Call {
    let task = call_task(rng, book, mood);
    let fitting = fitting_position(rng, book, &task);
    let at = match fitting {
        Some(at) if !rng.percent(mood.odd) => at,
        _ => any_position(rng),
    };
    Call::Place {
        task,
        number: place_number(rng, book, mood),
        column: at.column,
        bottom: at.bottom,
    }
}

/// A release call: mostly of a running task.
fn release(rng: &mut Rng, book: &Book, mood: Mood) -> Call {
    let running: Vec<u16> = book.running().keys().copied().collect();
    let is_odd = running.is_empty() || rng.percent(mood.odd);
    let number = if is_odd {
        odd_number(rng, &running)
    } else {
        u32::from(rng.pick(&running))
    };
    Call::Release { number }
}

/// Task bytes for a call: mostly well-formed.
fn call_task(rng: &mut Rng, book: &Book, mood: Mood) -> Vec<u8> {
    if rng.percent(mood.odd) {
        task_bytes(rng, book.device(), mood.blocks)
    } else {
        task(rng, book.device(), mood.blocks).bytes().to_vec()
    }
}

/// A position at which the task fits now, if there is one.
fn fitting_position(rng: &mut Rng, book: &Book, task: &[u8]) -> Option<Position> {
    let task = Task::from_bytes(task).ok()?;
    let fitting = fitting_positions(book.device(), &book.free_cells(), &task);
    (!fitting.is_empty()).then(|| rng.pick(&fitting))
}

/// Any position, on the device or far off it.
fn any_position(rng: &mut Rng) -> Position {
    let column = match rng.below(4) {
        0 => rng.pick(&[64, 255, 256, 257, 65_536, u32::MAX - 1, u32::MAX]),
        _ => rng.below(66) as u32,
    };
    let bottom = match rng.below(4) {
        0 => rng.pick(&[i32::MIN, -65_536, -10, -1, 256, 1024, 65_536, i32::MAX]),
        _ => rng.between(-12, 260) as i32,
    };
    Position { column, bottom }
}

/// A number for place: mostly one that is not running.
fn place_number(rng: &mut Rng, book: &Book, mood: Mood) -> u32 {
    let running: Vec<u16> = book.running().keys().copied().collect();
    if rng.percent(mood.odd) {
        return odd_number(rng, &running);
    }
    loop {
        // At most 64 numbers are taken, so the search ends soon.
        let number = rng.pick(&[1, 1, 65_001]) + rng.below(535) as u32;
        if !running.iter().any(|&taken| u32::from(taken) == number) {
            return number;
        }
    }
}

/// A number with something odd about it.
fn odd_number(rng: &mut Rng, running: &[u16]) -> u32 {
    if running.is_empty() || rng.percent(30) {
        let any = rng.next_u64() as u32;
        return rng.pick(&[0, 1, 65_535, 65_536, u32::MAX, any]);
    }
    let taken = u32::from(rng.pick(running));
    rng.pick(&[taken, taken + 65_536, taken + 1])
}
