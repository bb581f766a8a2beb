//! A program without the standard library and without an allocator; `outside.rs` builds it and runs it.

#![no_std]
#![no_main]

use card::{Card, Device, Kind, Position, Refusal, Task, RECORD_SIZE};

/// There may be one of these alone, so the program does not compile where the crate brings in `std`.
#[panic_handler]
fn panic(_: &core::panic::PanicInfo<'_>) -> ! {
    loop {}
}

// For the start of the program, and for `memcpy` and `memset`.
#[link(name = "c")]
extern "C" {}

/// Places a task, finds it by a half row and releases it again; gives its number.
fn calls() -> Result<u16, Refusal> {
    let mut record = [0; RECORD_SIZE];
    let mut card = Card::new_in(&mut record, &Device::from_text(5, "CCB")?)?;
    card.place(&Task::of(Kind::C, 4), 7, Position::new(1, 4))?;
    let held = card.running_at(1, 7).ok_or(Refusal::NotRunning)?;
    card.release(held.number)?;
    Ok(held.number)
}

/// Ends with the number of the task, or with a refusal.
#[no_mangle]
extern "C" fn main() -> i32 {
    calls().map_or_else(Refusal::number, i32::from)
}
