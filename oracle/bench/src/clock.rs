//! The time that this thread has run, which other programs on the machine do not stretch.

use std::ffi::{c_int, c_long};

#[repr(C)]
struct Timespec {
    seconds: i64,
    nanoseconds: c_long,
}

/// Linux's CLOCK_THREAD_CPUTIME_ID.
const THREAD: c_int = 3;

unsafe extern "C" {
    fn clock_gettime(clock: c_int, time: *mut Timespec) -> c_int;
}

pub fn seconds() -> f64 {
    let mut time = Timespec { seconds: 0, nanoseconds: 0 };
    // SAFETY: `time` has the C layout of 64-bit Linux and lives through the call.
    let failed = unsafe { clock_gettime(THREAD, &mut time) };
    assert_eq!(failed, 0, "the thread has no clock");
    time.seconds as f64 + time.nanoseconds as f64 / 1e9
}
