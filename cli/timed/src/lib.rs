//! The calls of the static library `timed`: the comparison and the zero test
//! of the proved crate `bytes`, eight bytes at a step and by single bytes.
//!
//! A package of its own, which tests and benchmarks alone depend on: the tool
//! is built without it.

unsafe extern "C" {
    fn pahyndoi_timed_same(a: *const u8, a_length: usize, b: *const u8, b_length: usize) -> bool;
    fn pahyndoi_timed_same_by_bytes(
        a: *const u8,
        a_length: usize,
        b: *const u8,
        b_length: usize,
    ) -> bool;
    fn pahyndoi_timed_all_zero(bytes: *const u8, length: usize) -> bool;
    fn pahyndoi_timed_all_zero_by_bytes(bytes: *const u8, length: usize) -> bool;
}

/// Both are equally long and have the same bytes.
#[inline]
pub fn same(a: &[u8], b: &[u8]) -> bool {
    // SAFETY: each slice is readable for its length and no pointer is null;
    // nothing is written.
    unsafe { pahyndoi_timed_same(a.as_ptr(), a.len(), b.as_ptr(), b.len()) }
}

/// [`same`] by single bytes.
#[inline]
pub fn same_by_bytes(a: &[u8], b: &[u8]) -> bool {
    // SAFETY: each slice is readable for its length and no pointer is null;
    // nothing is written.
    unsafe { pahyndoi_timed_same_by_bytes(a.as_ptr(), a.len(), b.as_ptr(), b.len()) }
}

/// All bytes are zero.
#[inline]
pub fn all_zero(bytes: &[u8]) -> bool {
    // SAFETY: the slice is readable for its length and its pointer is never
    // null; nothing is written.
    unsafe { pahyndoi_timed_all_zero(bytes.as_ptr(), bytes.len()) }
}

/// [`all_zero`] by single bytes.
#[inline]
pub fn all_zero_by_bytes(bytes: &[u8]) -> bool {
    // SAFETY: the slice is readable for its length and its pointer is never
    // null; nothing is written.
    unsafe { pahyndoi_timed_all_zero_by_bytes(bytes.as_ptr(), bytes.len()) }
}
