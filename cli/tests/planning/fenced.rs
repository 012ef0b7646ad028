//! Counts with memory behind them that cannot be read: a call that reads past
//! its list ends the test.

use std::slice;

use crate::fence::Fence;

pub struct Fenced(Fence);

impl Fenced {
    /// Room for so many counts of zero.
    pub fn zeros(room: usize) -> Fenced {
        Fenced(Fence::readable(room * size_of::<u32>()))
    }

    /// These counts, the last one just before the fence.
    pub fn of(counts: &[u32]) -> Fenced {
        Fenced(Fence::behind(counts))
    }

    /// The last counts before the fence.
    pub fn last(&self, count: usize) -> &[u32] {
        // SAFETY: the part is readable and aligned, and lives as long as self.
        unsafe { slice::from_raw_parts(self.0.last(count), count) }
    }
}
