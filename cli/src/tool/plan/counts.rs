//! The counts that a card is planned for, and the chunks that they take.

use std::ops::RangeInclusive;

use super::super::set::{LOG_CAPACITIES, Set};
use super::super::store::{CHUNKS, PHASES, RATCHET};
use super::super::text::{counted, grouped};

const MOST_COUNTS: usize = 64;
/// What a count may be.
pub const COUNTS: RangeInclusive<u32> = 0..=65_536;

pub struct Plan {
    /// The entries between two closes, for each close to come.
    pub counts: Vec<u32>,
    /// The chunks of the card.
    pub chunks: u32,
}

impl Plan {
    /// The chunks that the counts take: a close uses up the one that is begun.
    pub fn taken(&self, ratchet: u32) -> u64 {
        let counts = self.counts.iter();
        counts.map(|count| u64::from(count.div_ceil(ratchet))).sum()
    }

    pub fn lasts(&self, ratchet: u32) -> bool {
        self.taken(ratchet) <= self.chunks.into()
    }

    /// The fewest chunks that last with some ratchet, if a card has them.
    pub fn smallest_card(&self) -> Option<u64> {
        let fewest = self.taken(*RATCHET.end());
        Some(fewest).filter(|fewest| *fewest <= (*CHUNKS.end()).into())
    }

    /// Which card has chunks enough where this one does not.
    pub fn other_card(&self) -> String {
        match self.smallest_card() {
            Some(chunks) => format!(
                "The smallest card with chunks enough has {}.",
                grouped(chunks)
            ),
            None => format!(
                "No card has chunks enough: the largest has {}.",
                grouped((*CHUNKS.end()).into())
            ),
        }
    }

    /// Why chunks alone do not decide, if the logs of kind 1 can't take the
    /// entries: each has a byte or more.
    pub fn beyond_the_logs(&self) -> Option<String> {
        let room = u64::from(*PHASES.end()) * u64::from(Set::COMMON.log_capacity);
        let entries: u64 = self.counts.iter().copied().map(u64::from).sum();
        (entries > room).then(|| {
            format!(
                "The plan has {} entries, and the logs of a card of kind 1 take {} at most, of a \
                 byte each: it takes {}.",
                grouped(entries),
                grouped(room),
                logs_for(entries)
            )
        })
    }

    /// What is out of range in a plan that is refused.
    pub fn out_of_range(&self) -> String {
        let large = self.counts.iter().find(|count| !COUNTS.contains(count));
        match large {
            _ if self.counts.len() > MOST_COUNTS => {
                format!("There are {}.", counted(self.counts.len(), "count"))
            }
            Some(count) => format!("A count is {}.", grouped((*count).into())),
            None => format!("The chunk count is {}.", grouped(self.chunks.into())),
        }
    }
}

/// What has room for so many entries of a byte.
fn logs_for(entries: u64) -> String {
    let (phases, largest) = (PHASES.end(), LOG_CAPACITIES.end());
    match entries.div_ceil((*phases).into()) {
        capacity if capacity <= u64::from(*largest) => format!(
            "{phases} phases with a log capacity of {} or more",
            grouped(capacity)
        ),
        _ => "several cards".to_string(),
    }
}
