//! What is lent to a call: a part of a larger buffer, with guards around it, or
//! with a fence behind it.

use std::hint::black_box;
use std::ops::{Deref, DerefMut, Range};

use crate::fenced::Fenced;
use crate::random::Random;

const GUARD_COUNT: usize = 32;

/// Where a lent part stands.
#[derive(Clone, Copy, Debug)]
pub enum Stand {
    /// So many places off the usual alignment, between guards.
    Shifted(usize),
    /// Behind guards, and just before memory that cannot be touched.
    AtFence,
}

impl Stand {
    /// Mostly shifted, which takes less time.
    pub fn random(random: &mut Random) -> Stand {
        match random.once_in(30) {
            true => Stand::AtFence,
            false => Stand::Shifted(random.up_to(8)),
        }
    }
}

enum Memory<T> {
    Usual(Vec<T>),
    Fenced(Fenced<T>),
}

impl<T> Deref for Memory<T> {
    type Target = [T];

    fn deref(&self) -> &[T] {
        match self {
            Memory::Usual(memory) => memory,
            Memory::Fenced(memory) => memory,
        }
    }
}

impl<T> DerefMut for Memory<T> {
    fn deref_mut(&mut self) -> &mut [T] {
        match self {
            Memory::Usual(memory) => memory,
            Memory::Fenced(memory) => memory,
        }
    }
}

pub struct Lent<T> {
    memory: Memory<T>,
    range: Range<usize>,
    guard: T,
}

impl<T: Copy + PartialEq> Lent<T> {
    /// A copy of the content.
    pub fn new(content: &[T], guard: T, stand: Stand) -> Lent<T> {
        let (before, behind) = match stand {
            Stand::Shifted(shift) => (GUARD_COUNT + shift, GUARD_COUNT),
            Stand::AtFence => (GUARD_COUNT, 0),
        };
        let range = before..before + content.len();
        let mut buffer = vec![guard; range.end + behind];
        buffer[range.clone()].copy_from_slice(content);
        Lent {
            memory: match stand {
                Stand::Shifted(_) => Memory::Usual(buffer),
                Stand::AtFence => Memory::Fenced(Fenced::of(&buffer)),
            },
            range,
            guard,
        }
    }

    pub fn content(&self) -> &[T] {
        &self.memory[self.range.clone()]
    }

    pub fn content_mut(&mut self) -> &mut [T] {
        &mut self.memory[self.range.clone()]
    }

    /// The content after the call. Fails where a guard changed.
    pub fn give_back(self) -> Vec<T> {
        let memory = black_box(&self.memory);
        let outside = (memory[..self.range.start].iter()).chain(&memory[self.range.end..]);
        assert!(
            outside.copied().all(|guard| guard == self.guard),
            "what stands around the lent memory changed"
        );
        self.content().to_vec()
    }
}

/// Bytes that the call must only read.
pub fn assert_only_read<T: Copy + PartialEq>(lent: Lent<T>, before: &[T]) {
    assert!(lent.give_back() == before, "what is only read changed");
}
