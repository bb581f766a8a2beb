//! No call allocates: counted by the allocator of this test.

use std::alloc::{GlobalAlloc, Layout, System};
use std::cell::Cell;
use std::io::{Cursor, Write};

use card::{Card, Device, Kind, Task, LIST_ROOM, RECORD_SIZE};

thread_local! {
    /// How often this thread asked for memory.
    static ASKED: Cell<usize> = const { Cell::new(0) };
}

/// The system's allocator, counting.
struct Counting;

#[global_allocator]
static COUNTING: Counting = Counting;

// SAFETY: everything is handed on to the system's allocator as it came.
unsafe impl GlobalAlloc for Counting {
    unsafe fn alloc(&self, layout: Layout) -> *mut u8 {
        ASKED.set(ASKED.get() + 1);
        // SAFETY: the caller keeps what `alloc` asks for.
        unsafe { System.alloc(layout) }
    }

    unsafe fn dealloc(&self, at: *mut u8, layout: Layout) {
        // SAFETY: `at` came from `System.alloc` with this layout.
        unsafe { System.dealloc(at, layout) }
    }
}

/// How often something asks for memory.
fn asked<T>(work: impl FnOnce() -> T) -> usize {
    let before = ASKED.get();
    let given = work();
    let after = ASKED.get();
    drop(given);
    after - before
}

/// Every call, and everything that is read from a card.
fn all_calls(record: &mut [u8], output: &mut [u8]) -> Option<usize> {
    let device = Device::from_text(128, "CBC").ok()?;
    let mut card = Card::new_in(record, &device).ok()?;
    let task = Task::builder()
        .block(0, Kind::C, 0, 2)
        .block(1, Kind::B, -5, 5);
    let task = task.build().ok()?;
    task.check().ok()?;
    let mut seen = 0;
    for number in 1..=10 {
        let best = card.choose(&task).ok()?;
        card.place(&task, number, best).ok()?;
        card.place(&task, number, best).err()?;
        let ranges = card.list(&task, output).ok()?;
        seen += ranges.flat_map(|range| range.positions()).count();
        seen += card.intervals(1).ok()?.count();
        seen += card.running_task(number)?.task.blocks().len();
        card.running_at(best.column, best.bottom)?;
        let broken_up = card.fragmentation().ok()?;
        write!(Cursor::new(&mut *output), "{broken_up}, {card}").ok()?;
    }
    let running = card.running().map(|running| running.task.blocks().len());
    seen += running.sum::<usize>();
    card.release(3).ok()?;
    let opened = Card::open(card.into_bytes()).ok()?;
    Some(seen + opened.interval_count(0).ok()?)
}

#[test]
fn no_call_allocates() {
    let mut record = vec![0; RECORD_SIZE];
    let mut output = vec![0; LIST_ROOM];
    let mut seen = None;
    let count = asked(|| seen = all_calls(&mut record, &mut output));
    assert!(seen.is_some_and(|seen| seen > 50), "{seen:?}");
    assert_eq!(count, 0);
    // The counting works, and a card of its own is one allocation.
    let device = Device::new(1, &[Kind::C]).expect("a device");
    assert_eq!(asked(|| Card::new(&device)), 1);
}
