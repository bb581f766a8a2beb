//! The processor time of the calling thread: what other programs take of the machine is not in it.
//!
//! The system also tells it in `/proc/thread-self/schedstat`, but brings that up to date at its
//! ticks only, which are longer than a round. So the clock is asked itself.

use std::ffi::{c_int, c_long};
use std::time::Duration;

const _: () = assert!(
    cfg!(all(target_os = "linux", target_pointer_width = "64")),
    "the clock's number and the form of its answer are those of 64-bit Linux"
);

/// The number of the clock of a thread's processor time.
const THREAD_PROCESSOR_TIME: c_int = 3;

/// The form in which the system tells a time.
#[repr(C)]
struct TimeSpec {
    seconds: i64,
    nanoseconds: c_long,
}

extern "C" {
    /// Writes the time of a clock; answers 0 when it has.
    fn clock_gettime(clock: c_int, time: *mut TimeSpec) -> c_int;
}

/// The processor time that the calling thread has had.
pub fn processor_time() -> Duration {
    let mut time = TimeSpec {
        seconds: 0,
        nanoseconds: 0,
    };
    // SAFETY: the declaration above is that of the C library, which the standard library links;
    // the call writes one time to a place that is borrowed for it, and keeps no pointer.
    let answer = unsafe { clock_gettime(THREAD_PROCESSOR_TIME, &mut time) };
    assert_eq!(answer, 0, "the system has no clock for a thread");
    Duration::new(time.seconds as u64, time.nanoseconds as u32)
}
