//! The processor time of this thread: what other programs take of the
//! processor meanwhile is not in it.

use std::ffi::c_int;
use std::time::Duration;

/// `struct timespec` of a 64-bit Linux.
#[repr(C)]
struct TimeSpec {
    seconds: i64,
    nanoseconds: i64,
}

/// `CLOCK_THREAD_CPUTIME_ID` of Linux.
const THREAD_PROCESSOR_TIME: c_int = 3;

unsafe extern "C" {
    fn clock_gettime(clock: c_int, time: *mut TimeSpec) -> c_int;
}

pub fn processor_time() -> Duration {
    let mut time = TimeSpec {
        seconds: 0,
        nanoseconds: 0,
    };
    // SAFETY: the structure has the layout of the system's and is writable.
    let answer = unsafe { clock_gettime(THREAD_PROCESSOR_TIME, &mut time) };
    assert_eq!(answer, 0, "the system has no such clock");
    Duration::new(time.seconds as u64, time.nanoseconds as u32)
}
