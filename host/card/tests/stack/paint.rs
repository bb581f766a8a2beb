//! How deep a job writes: it is run on a stack of its own, which was painted before.

use std::arch::asm;

/// The painted stack, far above what is stated.
const SIZE: usize = 128 * 1024;

const PAINT: u8 = 0xa5;

/// The bytes at the top of a stack that a job wrote, and those between them that it passed over.
pub fn depth(mut job: impl FnMut()) -> usize {
    let mut stack = vec![PAINT; SIZE];
    let end = stack.as_mut_ptr_range().end;
    // The calling form has the stack pointer at a multiple of 16.
    let top = end.wrapping_sub(end as usize % 16);
    let mut job: &mut dyn FnMut() = &mut job;
    // SAFETY: below `top` are 128 KiB that nobody else uses.
    unsafe { run_at(top, &mut job) };
    let untouched = stack.iter().take_while(|&&byte| byte == PAINT).count();
    SIZE - untouched
}

/// Runs a job with the stack pointer at `top`.
///
/// # Safety
///
/// Below `top` is as much memory as the job needs for its stack.
unsafe fn run_at(top: *mut u8, job: &mut &mut dyn FnMut()) {
    // SAFETY: r12, which a callee keeps, holds the old stack pointer meanwhile.
    unsafe {
        asm!(
            "mov r12, rsp",
            "mov rsp, {top}",
            "call {run}",
            "mov rsp, r12",
            top = in(reg) top,
            run = sym run,
            in("rdi") job,
            out("r12") _,
            clobber_abi("C"),
        );
    }
}

/// The job in the C calling form.
extern "C" fn run(job: &mut &mut dyn FnMut()) {
    job();
}

#[test]
fn a_frame_is_seen() {
    let empty = depth(|| ());
    let deep = depth(|| {
        std::hint::black_box([0u8; 10_000]);
    });
    assert!(empty < 1_000, "{empty}");
    assert!((10_000..30_000).contains(&deep), "{deep}");
}
