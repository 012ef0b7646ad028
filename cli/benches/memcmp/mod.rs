//! The C library's `memcmp`.

use std::ffi::{c_int, c_void};
use std::hint::black_box;

type Call = unsafe extern "C" fn(*const c_void, *const c_void, usize) -> c_int;

unsafe extern "C" {
    fn memcmp(first: *const c_void, second: *const c_void, length: usize) -> c_int;
}

/// The function as a pointer: one that the compiler knows by its name it may
/// replace by code of its own.
#[derive(Clone, Copy)]
pub struct Memcmp(Call);

impl Memcmp {
    pub fn new() -> Self {
        Memcmp(black_box::<Call>(memcmp))
    }

    pub fn same(self, a: &[u8], b: &[u8]) -> bool {
        // SAFETY: both slices are readable for the length, which is theirs.
        a.len() == b.len() && unsafe { self.0(a.as_ptr().cast(), b.as_ptr().cast(), a.len()) == 0 }
    }

    /// Bytes are zero if the first is and each is the one before it.
    pub fn all_zero(self, bytes: &[u8]) -> bool {
        match bytes {
            [] => true,
            [first, behind @ ..] => *first == 0 && self.same(behind, &bytes[..behind.len()]),
        }
    }
}
