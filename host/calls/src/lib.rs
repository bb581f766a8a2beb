//! The calls on a record as a trait, with one type for each implementation.
//!
//! Tests and benchmarks are written over [`Calls`] and take any of them: the proved
//! library, plain Rust, and the oracle.

#![deny(missing_docs)]
#![forbid(unsafe_code)]

/// The calls on byte strings, as the C calling form has them: all but the view.
pub trait Calls: Sync {
    /// What the implementation is called in tables and messages.
    fn name(&self) -> &'static str;

    /// New: writes the record of a device with all cells free.
    // The document's name: it makes a record and not a value of this type.
    #[allow(clippy::new_ret_no_self, clippy::wrong_self_convention)]
    fn new(&self, record: &mut [u8], rows: u32, kinds: &[u8]) -> i32;

    /// Place: enters a task as running at a position.
    fn place(&self, record: &mut [u8], task: &[u8], number: u32, column: u32, bottom: i32) -> i32;

    /// Release: takes a running task out.
    fn release(&self, record: &mut [u8], number: u32) -> i32;

    /// List: writes a task's ranges.
    fn list(&self, record: &[u8], task: &[u8], output: &mut [u8]) -> i32;

    /// Choose: answers a task's best position.
    fn choose(&self, record: &[u8], task: &[u8]) -> i32;

    /// Interval count: answers how many intervals a column has.
    fn interval_count(&self, record: &[u8], column: u32) -> i32;

    /// Fragmentation: answers how many connected sets the free cells make, and writes the free cells
    /// and the degree.
    fn fragmentation(&self, record: &[u8], free: &mut i32, degree: &mut i32) -> i32;
}

/// A type whose calls are the functions of a module.
macro_rules! implementation {
    ($type:ident, $($module:ident)::+, $name:literal) => {
        #[doc = concat!("The calls of `", stringify!($($module)::+), "`.")]
        #[derive(Clone, Copy, Debug)]
        pub struct $type;

        impl Calls for $type {
            fn name(&self) -> &'static str {
                $name
            }

            fn new(&self, record: &mut [u8], rows: u32, kinds: &[u8]) -> i32 {
                $($module)::+::new(record, rows, kinds)
            }

            fn place(
                &self,
                record: &mut [u8],
                task: &[u8],
                number: u32,
                column: u32,
                bottom: i32,
            ) -> i32 {
                $($module)::+::place(record, task, number, column, bottom)
            }

            fn release(&self, record: &mut [u8], number: u32) -> i32 {
                $($module)::+::release(record, number)
            }

            fn list(&self, record: &[u8], task: &[u8], output: &mut [u8]) -> i32 {
                $($module)::+::list(record, task, output)
            }

            fn choose(&self, record: &[u8], task: &[u8]) -> i32 {
                $($module)::+::choose(record, task)
            }

            fn interval_count(&self, record: &[u8], column: u32) -> i32 {
                $($module)::+::interval_count(record, column)
            }

            fn fragmentation(&self, record: &[u8], free: &mut i32, degree: &mut i32) -> i32 {
                $($module)::+::fragmentation(record, free, degree)
            }
        }
    };
}

implementation!(Oracle, oracle::calls, "oracle");
implementation!(Plain, plain, "plain");
implementation!(Card, card::bytes, "proved");

/// The implementations that are tried and measured, the one in question first.
pub const SUBJECTS: [&dyn Calls; 2] = [&Card, &Plain];
