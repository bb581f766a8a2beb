//! The layout has one set of numbers: those of `layout.rs`, of `card.h` and of the proved model's `Limits.antt` are equal.

use std::collections::BTreeMap;

use card::layout::*;

/// Pairs each name with its value.
macro_rules! values {
    ($($name:ident)*) => { [$((stringify!($name), i64::from($name as i32))),*] };
}

/// What `layout.rs` has.
fn of_rust() -> BTreeMap<String, i64> {
    let limits = values!(MAX_ROWS MAX_COLUMNS MAX_BLOCKS MAX_RUNNING MAX_INTERVALS REACH);
    let sizes =
        values!(RECORD_SIZE LIST_ROOM BLOCK_SIZE RANGE_SIZE INTERVAL_SIZE COLUMN_SIZE ENTRY_SIZE);
    let record = values!(ROWS_AT COLUMNS_AT RUNNING_AT KINDS_AT COUNTS_AT INTERVALS_AT ENTRIES_AT);
    let entry = values!(ENTRY_NUMBER_AT ENTRY_COLUMN_AT ENTRY_COUNT_AT ENTRY_BOTTOM_AT BLOCKS_AT);
    let block = values!(BLOCK_COLUMN_AT BLOCK_KIND_AT BLOCK_BOTTOM_AT BLOCK_TOP_AT);
    let range = values!(RANGE_COLUMN_AT RANGE_STEP_AT RANGE_FIRST_AT RANGE_LAST_AT);
    let rest = values!(INTERVAL_BOTTOM_AT INTERVAL_TOP_AT COLUMN_WEIGHT);
    let parts: [&[(&str, i64)]; 7] = [&limits, &sizes, &record, &entry, &block, &range, &rest];
    let all = parts.concat().into_iter();
    all.map(|(name, value)| (name.to_string(), value)).collect()
}

/// What `card.h` defines, without the `CARD_`.
fn of_header() -> BTreeMap<String, i64> {
    let lines = include_str!("../../card.h").lines();
    let defined = lines.filter_map(|line| line.strip_prefix("#define CARD_"));
    let parted = defined.map(|line| line.split_once(' ').expect("a name and a value"));
    let number = |value: &str| value.split(' ').next().and_then(|word| word.parse().ok());
    parted
        .map(|(name, value)| (name.to_string(), number(value).expect(name)))
        .collect()
}

/// What the model has: lines like `max_rows = 128`.
fn of_model() -> BTreeMap<String, i64> {
    let lines = include_str!("../../../crates/model/specs/Limits.antt").lines();
    let parted = lines.filter_map(|line| line.split_once(" = "));
    parted
        .filter_map(|(name, value)| {
            let name = name.to_uppercase();
            Some((name, value.parse().ok()?))
        })
        .collect()
}

#[test]
fn the_header_has_the_numbers_of_rust() {
    assert_eq!(of_header(), of_rust());
    let declared = include_str!("../src/layout.rs").matches("pub const ");
    assert_eq!(declared.count(), of_rust().len());
}

#[test]
fn rust_has_the_numbers_of_the_model() {
    let (rust, model) = (of_rust(), of_model());
    // The first field of a part stands at 0; the model has no name for that.
    let unnamed: Vec<&String> = rust
        .keys()
        .filter(|&name| !model.contains_key(name))
        .collect();
    let first = [
        "BLOCK_COLUMN_AT",
        "ENTRY_NUMBER_AT",
        "INTERVAL_BOTTOM_AT",
        "RANGE_COLUMN_AT",
    ];
    assert_eq!(unnamed, first);
    for (name, value) in &rust {
        assert_eq!(model.get(name).unwrap_or(&0), value, "{name}");
    }
}

#[test]
fn the_parts_follow_one_another() {
    assert_eq!(COUNTS_AT, KINDS_AT + MAX_COLUMNS);
    assert_eq!(INTERVALS_AT, COUNTS_AT + MAX_COLUMNS);
    assert_eq!(COLUMN_SIZE, MAX_INTERVALS * INTERVAL_SIZE);
    assert_eq!(ENTRIES_AT, INTERVALS_AT + MAX_COLUMNS * COLUMN_SIZE);
    assert_eq!(ENTRY_SIZE, BLOCKS_AT + MAX_BLOCKS * BLOCK_SIZE);
    assert_eq!(RECORD_SIZE, ENTRIES_AT + MAX_RUNNING * ENTRY_SIZE);
}
