//! A signal that would end the tool in the middle of a write.

use std::ffi::c_int;

/// That a file grows beyond the limit on its size.
const SIGXFSZ: c_int = 25;
const SIG_IGN: usize = 1;

unsafe extern "C" {
    fn signal(number: c_int, handler: usize) -> usize;
}

/// A write beyond that limit is then an error, as on a full disk: it is told,
/// and what was begun is removed.
pub fn ignore_size_limit() {
    // Nothing else in this process handles the signal.
    unsafe { signal(SIGXFSZ, SIG_IGN) };
}
