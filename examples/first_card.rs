//! A first card: ask where a circuit fits, load it, look at the card, unload it.
//!
//! In `host/`: `cargo run --release -p card --example first_card`.

use std::error::Error;
use std::io::{self, Write};

use card::{Card, Device, Kind, Task, LIST_ROOM};

/// Makes the calls on one card and says what they give.
pub fn run(out: &mut impl Write) -> Result<(), Box<dyn Error>> {
    // 5 rows are 10 half rows. Two columns of logic (C), one of memory (B).
    let mut card = Card::new(&Device::from_text(5, "CCB")?);

    // A circuit is a task of blocks: column, kind, bottom and top, relative to the first block.
    let task = Task::builder()
        .block(0, Kind::C, 0, 2)
        .block(1, Kind::C, -2, 2)
        .block(2, Kind::B, 1, 6)
        .build()?;
    writeln!(out, "The circuit: {task}.")?;

    // List gives every position at which all blocks fit free cells, as ranges. The caller lends the output.
    let mut output = [0; LIST_ROOM];
    for range in card.list(&task, &mut output)? {
        writeln!(out, "It fits at {range}.")?;
    }

    // Choose gives the best of them. Place loads the circuit there, under a number of ours.
    let best = card.choose(&task)?;
    card.place(&task, 7, best)?;
    writeln!(out, "Loaded as number 7 at {best}.")?;

    refusals(&card, &task, out)?;
    load_and_unload(&mut card, out)
}

/// A refusal says why, and nothing has changed.
fn refusals(card: &Card, task: &Task, out: &mut impl Write) -> Result<(), Box<dyn Error>> {
    if let Err(refusal) = card.choose(task) {
        writeln!(out, "The same circuit once more: {refusal}.")?;
    }
    // Of a task that is not well-formed, check says which block is to blame.
    let wrong = Task::of(Kind::B, 4);
    if let (Err(refusal), Err(broken)) = (card.choose(&wrong), wrong.check()) {
        writeln!(out, "A wrong one: {refusal}; {broken}.")?;
    }
    Ok(())
}

/// A second circuit beside the first, the card drawn, and the first one unloaded.
fn load_and_unload(card: &mut Card, out: &mut impl Write) -> Result<(), Box<dyn Error>> {
    // A task of one block is shorter to write: logic, two cells of 2 half rows.
    let small = Task::of(Kind::C, 4);
    let best = card.choose(&small)?;
    card.place(&small, 8, best)?;
    writeln!(out, "A small one, loaded as number 8 at {best}. The card:")?;
    writeln!(out, "{card}")?;

    // How broken up is it? Free cells that touch are one set; with all in one set the degree is 0.
    let broken_up = card.fragmentation()?;
    writeln!(out, "Its fragmentation: {broken_up}.")?;

    // Who is there? Any half row of a cell will do.
    if let Some(running) = card.running_at(1, 2) {
        writeln!(out, "Column 1, half row 2 is held by {running}.")?;
    }

    // Release unloads. The freed cells are joined to free neighbours on both sides.
    card.release(7)?;
    // One call for a column, and not one for each half row: every call checks the whole record.
    for free in card.intervals(0)? {
        writeln!(out, "7 unloaded; free in column 0: {free}.")?;
    }
    Ok(())
}

fn main() -> Result<(), Box<dyn Error>> {
    run(&mut io::stdout().lock())
}
