//! Whether the tool was started with its standard output closed.
//!
//! Rust's runtime opens `/dev/null` in the place of a closed output before
//! `main`, and an answer written there is lost without an error. So a function
//! that runs earlier asks the system.

use std::ffi::c_int;
use std::sync::atomic::{AtomicBool, Ordering};

const STANDARD_OUTPUT: c_int = 1;
/// The flags of a descriptor, or -1 if it is closed.
const F_GETFD: c_int = 1;

unsafe extern "C" {
    fn fcntl(descriptor: c_int, command: c_int, ...) -> c_int;
}

static CLOSED: AtomicBool = AtomicBool::new(false);

/// Linux's C libraries call what stands in this section before `main`.
#[used]
#[cfg_attr(target_os = "linux", unsafe(link_section = ".init_array"))]
static BEFORE_MAIN: extern "C" fn() = ask;

extern "C" fn ask() {
    // Reads flags and alters nothing.
    let flags = unsafe { fcntl(STANDARD_OUTPUT, F_GETFD) };
    CLOSED.store(flags == -1, Ordering::Relaxed);
}

pub fn at_start() -> bool {
    CLOSED.load(Ordering::Relaxed)
}
