//! Small cards exhaustively: every device and task up to a size, every history over a set of calls.

use std::collections::HashSet;

use calls::Calls;
use oracle::history::Call;
use oracle::task::{bytes_of, Block, Task};
use oracle::{Book, Device, Kind, Position};

use crate::pair::Pair;
use crate::shapes::{choose_call, list_call, place_call};
use crate::Trial;

/// Cards to try exhaustively: devices, and the tasks to try on each of them.
pub struct Cards {
    /// The devices.
    pub devices: Vec<Device>,
    /// The bytes of the tasks.
    pub tasks: Vec<Vec<u8>>,
}

impl Cards {
    /// Every device of up to so many rows and columns, and every task within a reach.
    pub fn up_to(rows: u32, columns: u32, reach: i16) -> Cards {
        Cards::on(devices(rows, columns), reach)
    }

    /// These devices, and every task within a reach.
    pub fn on(devices: Vec<Device>, reach: i16) -> Cards {
        let tasks = tasks(reach);
        Cards { devices, tasks }
    }
}

/// Every device of up to so many rows and columns.
fn devices(rows: u32, columns: u32) -> Vec<Device> {
    let mut all = Vec::new();
    for count in 1..=columns {
        for code in 0..3usize.pow(count) {
            // The digits of the code, to base 3, are the kinds.
            let kind = |column: u32| (code / 3usize.pow(column) % 3) as u8;
            let kinds: Vec<u8> = (0..count).map(kind).collect();
            all.extend((1..=rows).filter_map(|rows| Device::new(rows, &kinds).ok()));
        }
    }
    all
}

/// Every block in a column within so many half rows of 0.
fn blocks(column: u8, reach: i16) -> Vec<Block> {
    let mut all = Vec::new();
    for kind in Kind::ALL {
        for bottom in -reach..=reach {
            let tops = (bottom..=reach).step_by(kind.height() as usize).skip(1);
            all.extend(tops.map(|top| Block {
                column,
                kind,
                bottom,
                top,
            }));
        }
    }
    all
}

/// Every well-formed task of one or two blocks, over one or two columns, within a reach.
fn tasks(reach: i16) -> Vec<Vec<u8>> {
    let mut all = Vec::new();
    for first in blocks(0, reach) {
        all.push(vec![first]);
        let others = blocks(0, reach).into_iter().chain(blocks(1, reach));
        all.extend(others.map(|second| vec![first, second]));
    }
    all.retain(|blocks| Task::from_blocks(blocks).is_ok());
    all.iter().map(|blocks| bytes_of(blocks)).collect()
}

/// Every position on a device and one step around it.
fn positions(device: &Device) -> Vec<Position> {
    let bottoms = -1..=device.half_rows() as i32;
    let in_column = |column| {
        let bottoms = bottoms.clone();
        bottoms.map(move |bottom| Position { column, bottom })
    };
    (0..=device.columns() as u32).flat_map(in_column).collect()
}

/// Lists and chooses every task on every device, empty; answers how many had a position.
pub fn searches(subject: &dyn Calls, cards: &Cards) -> Trial<usize> {
    let mut fitting = 0;
    for device in &cards.devices {
        let mut pair = Pair::new(subject, device.clone())?;
        for task in &cards.tasks {
            fitting += usize::from(pair.call(&list_call(task))? > 0);
            pair.call(&choose_call(task))?;
        }
    }
    Ok(fitting)
}

/// Places every task at every position of every device, and releases it; answers how many fitted.
pub fn placements(subject: &dyn Calls, cards: &Cards) -> Trial<usize> {
    let mut fitting = 0;
    for device in &cards.devices {
        let mut pair = Pair::new(subject, device.clone())?;
        for at in positions(device) {
            for task in &cards.tasks {
                let number = 7;
                if pair.call(&place_call(task, number, at))? == 0 {
                    fitting += 1;
                    pair.call(&Call::Release { number })?;
                }
            }
        }
    }
    Ok(fitting)
}

/// The calls of a small history: each task listed, chosen and placed everywhere under each number.
pub fn alphabet(device: &Device, tasks: &[Vec<u8>], numbers: &[u32]) -> Vec<Call> {
    let mut calls = Vec::new();
    for task in tasks {
        calls.push(list_call(task));
        calls.push(choose_call(task));
        for &number in numbers {
            let places = positions(device).into_iter();
            calls.extend(places.map(|at| place_call(task, number, at)));
        }
    }
    let others = [0, 65_536 + numbers[0]];
    let releases = numbers.iter().chain(&others);
    calls.extend(releases.map(|&number| Call::Release { number }));
    calls
}

/// What a search through histories went through.
#[derive(Clone, Copy, Debug, Default, PartialEq, Eq)]
pub struct Coverage {
    /// Different books.
    pub books: usize,
    /// Calls made.
    pub calls: usize,
}

/// A book's tasks, to know it again.
type Key = Vec<(u16, u32, i32, Vec<u8>)>;

fn key(book: &Book) -> Key {
    let entry = |(&number, running): (&u16, &oracle::book::Running)| {
        let at = running.position;
        let bytes = running.task.bytes().to_vec();
        (number, at.column, at.bottom, bytes)
    };
    book.running().iter().map(entry).collect()
}

/// Makes every call on every book that histories over the calls lead to, and asks each how broken up it is.
///
/// Since the record is the book's after every call, and a call sees nothing but
/// its arguments, this covers every history over these calls, of any length.
pub fn every_book(subject: &dyn Calls, device: &Device, calls: &[Call]) -> Trial<Coverage> {
    let start = Pair::new(subject, device.clone())?;
    let mut seen = HashSet::from([key(start.book())]);
    let mut open = vec![start];
    let mut coverage = Coverage::default();
    while let Some(pair) = open.pop() {
        coverage.books += 1;
        pair.fragmentation()?;
        let mut next = pair.clone();
        for call in calls {
            coverage.calls += 1;
            let answer = next.call(call)?;
            let changes = matches!(call, Call::Place { .. } | Call::Release { .. });
            if changes && answer == 0 {
                if seen.insert(key(next.book())) {
                    open.push(next);
                }
                next = pair.clone();
            }
        }
    }
    Ok(coverage)
}

/// Makes every history of a length, call by call, without leaving any out; answers the calls made.
pub fn every_history(pair: &Pair, calls: &[Call], length: usize) -> Trial<usize> {
    if length == 0 {
        return Ok(0);
    }
    let mut made = 0;
    for call in calls {
        let mut next = pair.clone();
        next.call(call)?;
        made += 1 + every_history(&next, calls, length - 1)?;
    }
    Ok(made)
}
