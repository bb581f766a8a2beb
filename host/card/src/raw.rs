//! The functions of the static archive, as the Rattle source declares them: unsafe, for callers that hold pointers.
//!
//! A byte slice passes as a pointer and then a length, a number that is written as
//! a pointer alone. A caller keeps that each pointer is valid for its length, for
//! writing where it is `*mut` (with length 0 it may be any, null too), that one to a
//! number is valid and aligned, that what is written overlaps nothing else of the
//! call, and that nobody else uses it meanwhile. Everything else is promised: any bytes, lengths and numbers get the
//! model's answer. No pointer is kept. [`bytes`](crate::bytes) has the same functions on slices.
//!
//! Nothing checks these declarations against the source, so they stand in this
//! one file, in the order of the source, and `trials` compares every function
//! with the oracle. `host/card.h` has them for C.

extern "C" {
    /// `card_new(record: &mut [u8], rows: u32, kinds: &[u8]) -> i32`
    pub fn card_new(
        record: *mut u8,
        record_len: usize,
        rows: u32,
        kinds: *const u8,
        kinds_len: usize,
    ) -> i32;

    /// `card_place(record: &mut [u8], task: &[u8], number: u32, column: u32, bottom: i32) -> i32`
    pub fn card_place(
        record: *mut u8,
        record_len: usize,
        task: *const u8,
        task_len: usize,
        number: u32,
        column: u32,
        bottom: i32,
    ) -> i32;

    /// `card_release(record: &mut [u8], number: u32) -> i32`
    pub fn card_release(record: *mut u8, record_len: usize, number: u32) -> i32;

    /// `card_list(record: &[u8], task: &[u8], output: &mut [u8]) -> i32`
    pub fn card_list(
        record: *const u8,
        record_len: usize,
        task: *const u8,
        task_len: usize,
        output: *mut u8,
        output_len: usize,
    ) -> i32;

    /// `card_choose(record: &[u8], task: &[u8]) -> i32`
    pub fn card_choose(
        record: *const u8,
        record_len: usize,
        task: *const u8,
        task_len: usize,
    ) -> i32;

    /// `card_interval_count(record: &[u8], column: u32) -> i32`
    pub fn card_interval_count(record: *const u8, record_len: usize, column: u32) -> i32;

    /// `card_fragmentation(record: &[u8], free: &mut i32, degree: &mut i32) -> i32`
    pub fn card_fragmentation(
        record: *const u8,
        record_len: usize,
        free: *mut i32,
        degree: *mut i32,
    ) -> i32;
}
