//! Memory with a part behind it that cannot be touched: a call that goes past
//! its end ends the test.

use std::ffi::{c_int, c_long, c_void};
use std::ptr;

unsafe extern "C" {
    fn mmap(
        address: *mut c_void,
        length: usize,
        protection: c_int,
        flags: c_int,
        file: c_int,
        offset: c_long,
    ) -> *mut c_void;
    fn mprotect(address: *mut c_void, length: usize, protection: c_int) -> c_int;
    fn munmap(address: *mut c_void, length: usize) -> c_int;
}

/// Of Linux, as the numbers below.
const NO_ACCESS: c_int = 0;
const READ: c_int = 1;
const READ_AND_WRITE: c_int = 3;
const PRIVATE_WITHOUT_FILE: c_int = 0x22;

/// A multiple of the page of every x86-64 and of most others.
const PAGE: usize = 65_536;

/// Zeroed memory up to a page that cannot be touched.
pub struct Fence {
    start: *mut c_void,
    /// How much stands before that page.
    usable: usize,
}

impl Fence {
    /// Room for so many bytes, which are only read: it takes none of the
    /// machine's memory, however much it is.
    pub fn readable(room: usize) -> Fence {
        let usable = room.next_multiple_of(PAGE);
        // SAFETY: the system chooses the place of new memory; of that the last
        // page is given other rights.
        unsafe {
            let length = usable + PAGE;
            let start = mmap(ptr::null_mut(), length, READ, PRIVATE_WITHOUT_FILE, -1, 0);
            assert!(start.addr() != usize::MAX, "no memory");
            assert_eq!(mprotect(start.byte_add(usable), PAGE, NO_ACCESS), 0);
            Fence { start, usable }
        }
    }

    /// A copy of the content, its end just before the fence.
    pub fn behind<T: Copy>(content: &[T]) -> Fence {
        let fence = Fence::readable(size_of_val(content));
        // SAFETY: the part becomes writable, nobody else has it yet, and the
        // content has room there.
        unsafe {
            assert_eq!(mprotect(fence.start, fence.usable, READ_AND_WRITE), 0);
            let first = fence.last(content.len());
            ptr::copy_nonoverlapping(content.as_ptr(), first, content.len());
        }
        fence
    }

    /// Where the last so many values before the fence begin. The fence is
    /// aligned for every type, and a type's size is a multiple of its
    /// alignment.
    pub fn last<T>(&self, count: usize) -> *mut T {
        let length = count * size_of::<T>();
        assert!(length <= self.usable);
        // SAFETY: the place is inside the memory or at its end.
        unsafe { self.start.byte_add(self.usable - length).cast() }
    }
}

impl Drop for Fence {
    fn drop(&mut self) {
        // SAFETY: the memory is self's, and no part of it is lent any more.
        unsafe { munmap(self.start, self.usable + PAGE) };
    }
}
