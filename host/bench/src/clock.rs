//! The processor time of this thread: what other programs take of the core meanwhile does not count.

#![allow(unsafe_code)]

use std::time::Duration;

/// `struct timespec` of Linux on x86-64.
#[repr(C)]
struct Timespec {
    seconds: i64,
    nanoseconds: i64,
}

/// `CLOCK_THREAD_CPUTIME_ID` of Linux.
const THREAD: i32 = 3;

extern "C" {
    fn clock_gettime(clock: i32, time: *mut Timespec) -> i32;
}

/// The processor time that this thread has had.
pub fn now() -> Duration {
    let mut time = Timespec {
        seconds: 0,
        nanoseconds: 0,
    };
    // SAFETY: the pointer is to a timespec of this function's own.
    let failed = unsafe { clock_gettime(THREAD, &mut time) };
    assert_eq!(failed, 0, "the clock of this thread");
    Duration::new(time.seconds as u64, time.nanoseconds as u32)
}
