//! Random sheets: well-formed ones, from calls that the caller knows, and
//! ones with every kind of malformed line.

use crate::arbitrary::{call, device, mood, task_bytes};
use crate::book::Book;
use crate::device::{Device, Kind};
use crate::history::Call;
use crate::line::{SheetCall, FIRST_NAMES, SECOND_NAMES};
use crate::rng::Rng;
use crate::sheet::MAX_SHEET;
use crate::task::{Block, BLOCK_SIZE};

/// The sheet calls of a random history of so many calls on a device.
pub fn sheet_calls(rng: &mut Rng, device: &Device, count: usize) -> Vec<SheetCall> {
    let mut book = Book::on(device.clone());
    let mood = mood(rng);
    let mut calls = Vec::new();
    for _ in 0..count {
        let call = call(rng, &book, mood);
        let Some(mut more) = sheet_calls_of(rng, &call) else {
            continue;
        };
        call.on_book(&mut book);
        calls.append(&mut more);
        if rng.percent(5) {
            calls.extend(stray_block(rng, device));
        }
    }
    calls
}

/// A history's call as a sheet's, the draft being its task; none where a field could not carry it.
fn sheet_call(call: &Call) -> Option<SheetCall> {
    Some(match *call {
        Call::List { .. } => SheetCall::ListDraft,
        Call::Choose { .. } => SheetCall::ChooseDraft,
        Call::Place {
            number,
            column,
            bottom,
            ..
        } => SheetCall::PlaceDraft {
            task: u16::try_from(number).ok()?,
            column: u8::try_from(column).ok()?,
            bottom: i16::try_from(bottom).ok()?,
        },
        Call::Release { number } => SheetCall::ReleaseTask {
            task: u16::try_from(number).ok()?,
        },
    })
}

/// A history's call with the calls that draft its task; none where a field could not carry it.
fn sheet_calls_of(rng: &mut Rng, call: &Call) -> Option<Vec<SheetCall>> {
    let last = sheet_call(call)?;
    let Some(task) = call.task() else {
        return Some(vec![last]);
    };
    let mut calls = vec![SheetCall::EmptyDraft];
    for bytes in task.chunks_exact(BLOCK_SIZE) {
        let b = [bytes[0], bytes[1], bytes[2], bytes[3], bytes[4], bytes[5]];
        calls.push(SheetCall::AddBlock(Block::from_bytes(b)?));
    }
    calls.push(last);
    // The draft stays after each of these calls, so asking again is of use.
    if rng.percent(30) {
        calls.push(rng.pick(&[SheetCall::ListDraft, SheetCall::ChooseDraft, last]));
    }
    Some(calls)
}

/// A block that may or may not belong to the draft.
fn stray_block(rng: &mut Rng, device: &Device) -> Option<SheetCall> {
    let bytes = task_bytes(rng, device, 2);
    let first = bytes.first_chunk::<BLOCK_SIZE>()?;
    Block::from_bytes(*first).map(SheetCall::AddBlock)
}

/// The sheet of a device and calls.
pub fn text_of(device: &Device, calls: &[SheetCall]) -> Vec<u8> {
    let mut text = FIRST_NAMES.to_vec();
    text.extend(format!("\n{} ", device.rows()).bytes());
    text.extend(device.kinds().iter().map(|kind| Kind::letter(*kind)));
    text.push(b'\n');
    text.extend(SECOND_NAMES);
    text.push(b'\n');
    for call in calls {
        text.extend(format!("{call}\n").bytes());
    }
    text
}

/// Any sheet: mostly well-formed, with damaged lines, or cut, or too long.
pub fn sheet_bytes(rng: &mut Rng) -> Vec<u8> {
    let device = device(rng);
    let count = rng.below(30);
    let calls = sheet_calls(rng, &device, count);
    let mut text = text_of(&device, &calls);
    let after_names = text_of(&device, &[]).len();
    for _ in 0..rng.pick(&[0, 1, 5, 20]) {
        // Damage to lines 1 to 3 ends the sheet, so most of it comes later.
        let low = if rng.percent(3) { 0 } else { after_names };
        damage_text(rng, &mut text, low);
    }
    match rng.below(12) {
        0 => text.truncate(rng.below(text.len() + 1)),
        1 => text.truncate(text.len() - 1),
        2 => text.push(b'\n'),
        3 => text.resize(rng.pick(&[MAX_SHEET, MAX_SHEET + 1]), b'\n'),
        _ => {}
    }
    text
}

/// Puts in, takes out or changes a few bytes at one place.
fn damage_text(rng: &mut Rng, text: &mut Vec<u8>, low: usize) {
    if low >= text.len() {
        return;
    }
    let at = low + rng.below(text.len() - low);
    let pieces: [&[u8]; 16] = [
        b" ", b"-", b"0", b"+", b"\r", b"\t", b"\0", b"\n", b"\xff", b"9", b"B", b"256", b"65536",
        b"32768", b"-0", b"-32769",
    ];
    match rng.below(4) {
        0 => text[at] = rng.byte(),
        1 => {
            text.remove(at);
        }
        2 => {
            let piece = rng.pick(&pieces);
            text.splice(at..at, piece.iter().copied());
        }
        _ => {
            let piece = vec![rng.pick(b" 0-9C"); rng.below(90)];
            text.splice(at..at, piece);
        }
    }
}
