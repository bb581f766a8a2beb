//! The stack that the calls of the archive need, held against what `host/card.h` states.
//!
//! What is proved leaves out a stack that runs out, so the stack is measured, in two ways: `frames` adds up
//! the frames of the machine code along every chain of calls, which bounds every input; `paint` looks how deep
//! each call writes on the heaviest cards.

mod cards;
mod frames;
mod paint;

const KIB: usize = 1024;

/// What `card_fragmentation` needs at most; its frames take 9,568 bytes, 8 KiB of them for the sets of intervals.
const FRAGMENTATION_STACK: usize = 16 * KIB;

/// What every other call needs at most; the frames of choose, the deepest, take 2,784 bytes.
const CALL_STACK: usize = 8 * KIB;

/// The bytes of the bits of all columns' cells, which every call but new has on the stack while it checks the record:
/// 64 columns of 128 cells.
const BITS_SIZE: usize = 64 * 128 / 8;

/// Left over for memcpy and memset, and for a dynamic linker that looks them up at their first call.
const C_LIBRARY: usize = 4 * KIB;

/// What a call, by its exported name, needs at most.
fn stated(call: &str) -> usize {
    match call {
        "card_fragmentation" => FRAGMENTATION_STACK,
        _ => CALL_STACK,
    }
}

/// The exported calls.
const CALLS: [&str; 7] = [
    "card_new",
    "card_place",
    "card_release",
    "card_list",
    "card_choose",
    "card_interval_count",
    "card_fragmentation",
];

#[test]
fn the_frames_of_every_chain_of_calls_are_below_what_is_stated() {
    let functions = frames::functions();
    let mut exported: Vec<&str> = functions.keys().map(String::as_str).collect();
    exported.retain(|name| name.starts_with("card_"));
    let mut calls = CALLS;
    calls.sort();
    assert_eq!(exported, calls);
    for call in CALLS {
        let deepest = frames::depth(&functions, call);
        println!("{call}: {deepest} bytes of frames");
        assert!(deepest + C_LIBRARY <= stated(call), "{call}: {deepest}");
    }
}

#[test]
fn no_call_writes_deeper_than_is_stated() {
    for (call, deepest) in CALLS.into_iter().zip(cards::deepest()) {
        println!("{call}: wrote {deepest} bytes deep");
        assert!(deepest + C_LIBRARY <= stated(call), "{call}: {deepest}");
        // The check of a record clears the bits, which the paint has to show.
        let seen = call == "card_new" || deepest > BITS_SIZE;
        assert!(seen, "{call}: {deepest}");
    }
}

#[test]
fn the_rust_over_it_needs_no_more() {
    let mut seen = None;
    let deepest = paint::depth(|| seen = cards::through_rust());
    println!("through Rust: wrote {deepest} bytes deep");
    assert!(seen.is_some_and(|seen| seen > 0), "{seen:?}");
    assert!(deepest + C_LIBRARY <= FRAGMENTATION_STACK, "{deepest}");
}

#[test]
fn the_documents_state_these_figures() {
    let header = include_str!("../../../card.h");
    let library = include_str!("../../src/lib.rs");
    let readme = include_str!("../../../../README.md");
    for (name, text) in [("card.h", header), ("lib.rs", library), ("README", readme)] {
        for size in [CALL_STACK, FRAGMENTATION_STACK] {
            // After a blank, so that 8 is not seen in 128.
            let figure = format!(" {} KiB", size / KIB);
            assert!(
                text.replace('\n', " ").contains(&figure),
                "{name} has no{figure}"
            );
        }
    }
}
