//! The sealing scheme of `docs/FORMAT.md` in plain Rust, for comparison.
//! Independent of the static library and of every proved definition.

mod account;
mod audit;
mod bytes;
mod carried;
mod claim;
mod history;
mod item;
mod key;
mod lookup;
mod planning;
mod refusal;
mod sealing;
mod store;
mod tag;
#[cfg(test)]
mod tests;

pub use account::Account;
pub use audit::{Presented, audit, audit_packed, log_lengths};
pub use carried::{count_of_last_chunk, is_half_used_by_items};
pub use claim::{Outcome, Outcomes, outcomes};
pub use history::{Call, Event, is_history, is_history_by_calls};
pub use item::{Head, Item, items};
pub use key::{Position, key_at, next_key, position, ratchet_head};
pub use lookup::Audited;
pub use planning::{chunks_needed, least_ratchet};
pub use sealing::{State, append, close, open, restart};
pub use store::{Header, Set, burned_at_front, chunk, is_burned};
pub use tag::hmac_sha256;

use crate::plain;

/// The length in bytes of a chunk and a key.
pub const KEY_LENGTH: usize = 32;

/// The length in bytes of a whole HMAC.
pub const HMAC_LENGTH: usize = 32;

/// The most phases that a store can name.
pub const PHASE_LIMIT: usize = 8;

/// The bytes of one phase's log in the log memory, with a store of kind 1.
pub const LOG_CAPACITY: usize = Set::COMMON.log_capacity as usize;

/// The longest data of one entry, with a store of kind 1.
pub const DATA_LIMIT: usize = Set::COMMON.data_limit as usize;

/// The bytes of an entry item, with a store of kind 1.
pub const ENTRY_LENGTH: usize = Set::COMMON.entry_length();

/// The bytes of a filler item, with a store of kind 1.
pub const FILLER_LENGTH: usize = Set::COMMON.filler_length();

/// The bytes of a restart item, with a store of kind 1.
pub const RESTART_LENGTH: usize = Set::COMMON.restart_length();

/// HMAC-SHA-256 of a message given in parts, under the key given first.
pub type Hmac = fn(&[u8], &[&[u8]]) -> [u8; HMAC_LENGTH];

/// The HMAC of [`plain`].
pub fn plain_hmac(key: &[u8], message_parts: &[&[u8]]) -> [u8; HMAC_LENGTH] {
    plain::hmac_sha256(key, &message_parts.concat())
}

/// What a device lends to every call.
#[derive(Clone, Debug, PartialEq, Eq)]
pub struct Material {
    pub store: Vec<u8>,
    pub log_memory: Vec<u8>,
    pub seal_memory: Vec<u8>,
}

/// A call's refusal, 0 where it did its work, and its count or item number.
#[derive(Clone, Copy, Debug, PartialEq, Eq)]
pub struct Answer {
    pub refusal: u32,
    pub number: u32,
}

impl Answer {
    fn done(number: u32) -> Self {
        Answer { refusal: 0, number }
    }

    fn refused(refusal: u32) -> Self {
        Answer { refusal, number: 0 }
    }

    /// The refusal times 2 to the 32 plus the number.
    pub fn packed(self) -> u64 {
        (u64::from(self.refusal) << 32) + u64::from(self.number)
    }
}
