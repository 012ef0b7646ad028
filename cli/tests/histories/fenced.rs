//! What is lent with memory behind it that cannot be touched: a call that reads
//! or writes past its end ends the test.

use std::marker::PhantomData;
use std::ops::{Deref, DerefMut};
use std::slice;

use crate::fence::Fence;

pub struct Fenced<T> {
    fence: Fence,
    count: usize,
    content: PhantomData<T>,
}

impl<T: Copy> Fenced<T> {
    /// A copy of the content, its end just before the fence.
    pub fn of(content: &[T]) -> Fenced<T> {
        Fenced {
            fence: Fence::behind(content),
            count: content.len(),
            content: PhantomData,
        }
    }
}

impl<T> Deref for Fenced<T> {
    type Target = [T];

    fn deref(&self) -> &[T] {
        // SAFETY: the content was copied there, and lives as long as self.
        unsafe { slice::from_raw_parts(self.fence.last(self.count), self.count) }
    }
}

impl<T> DerefMut for Fenced<T> {
    fn deref_mut(&mut self) -> &mut [T] {
        // SAFETY: as above, and self is borrowed mutably.
        unsafe { slice::from_raw_parts_mut(self.fence.last(self.count), self.count) }
    }
}
