//! The place that is due behind items.

use std::fmt;

use super::item::Item;

/// A chunk number and a ratchet offset.
#[derive(Clone, Copy, Debug, PartialEq, Eq)]
pub struct Due {
    pub chunk: u64,
    pub offset: u64,
}

impl Due {
    /// Behind these items, each of which the audit has taken: the last one's
    /// place says it.
    pub fn behind(items: &[Item], ratchet: u32) -> Due {
        let Some(last) = items.last() else {
            return Due::start_of(0);
        };
        let (chunk, offset) = (u64::from(last.chunk), u64::from(last.ratchet) + 1);
        match offset < u64::from(ratchet) {
            true => Due { chunk, offset },
            false => Due::start_of(chunk + 1),
        }
    }

    /// The first key of a chunk.
    pub fn start_of(chunk: u64) -> Due {
        Due { chunk, offset: 0 }
    }

    /// Whether the chunk has items, and keys left.
    pub fn is_half_used(&self) -> bool {
        self.offset > 0
    }

    /// In words, with the restart that may stand there in its place.
    pub fn words(&self) -> String {
        match self.is_half_used() {
            true => format!(
                "{self}, or a restart with the number {}, {}",
                self.offset,
                Due::start_of(self.chunk + 1)
            ),
            false => self.to_string(),
        }
    }
}

impl fmt::Display for Due {
    fn fmt(&self, formatter: &mut fmt::Formatter<'_>) -> fmt::Result {
        let Due { chunk, offset } = self;
        write!(formatter, "chunk {chunk}, ratchet offset {offset}")
    }
}

#[cfg(test)]
mod tests {
    use super::super::item::Content;
    use super::*;

    /// What is due behind an item at this place.
    fn behind(chunk: u32, ratchet: u32, keys: u32) -> String {
        let item = Item {
            number: 0,
            place: 0..0,
            content: Content::Filler,
            chunk,
            ratchet,
            tag: Vec::new(),
        };
        Due::behind(&[item], keys).words()
    }

    #[test]
    fn first_of_all_the_first_key_is_due() {
        let due = Due::behind(&[], 3);
        assert_eq!(due.words(), "chunk 0, ratchet offset 0");
    }

    #[test]
    fn within_a_chunk_the_next_key_or_a_restart() {
        let first = "chunk 4, ratchet offset 1, or a restart with the number 1, chunk 5, ratchet \
                     offset 0";
        assert_eq!(behind(4, 0, 3), first);
        let last = "chunk 4, ratchet offset 2, or a restart with the number 2, chunk 5, ratchet \
                    offset 0";
        assert_eq!(behind(4, 1, 3), last);
    }

    #[test]
    fn behind_a_chunk_the_next_one() {
        assert_eq!(behind(4, 2, 3), "chunk 5, ratchet offset 0");
        assert_eq!(behind(0, 0, 1), "chunk 1, ratchet offset 0");
    }

    /// Of items that no audit takes too.
    #[test]
    fn largest_numbers() {
        let expected = "chunk 4294967296, ratchet offset 0";
        assert_eq!(behind(u32::MAX, u32::MAX, 256), expected);
    }
}
