//! Which ratchet a card needs.

use super::Answer;
use super::refusal::BAD_PLAN;

/// The most counts of a plan, and the largest of them.
const COUNTS_LIMIT: usize = 64;
const COUNT_LIMIT: u32 = 65_536;

/// The most chunks and the largest ratchet of a store.
const CHUNK_LIMIT: u32 = 1024;
const RATCHET_LIMIT: u32 = 256;

/// The least ratchet from 1 to 256 with which so many chunks last, 0 where they
/// last with none of these. Each count says how many entries come before a close.
pub fn least_ratchet(counts: &[u32], chunks: u32) -> Answer {
    let too_large = counts.iter().any(|count| *count > COUNT_LIMIT);
    if counts.len() > COUNTS_LIMIT || too_large || !(1..=CHUNK_LIMIT).contains(&chunks) {
        return Answer::refused(BAD_PLAN);
    }
    let mut ratchets = 1..=RATCHET_LIMIT;
    let least = ratchets.find(|ratchet| chunks_needed(counts, *ratchet) <= chunks);
    Answer::done(least.unwrap_or(0))
}

/// How many chunks the entries take if a close follows each count of them.
pub fn chunks_needed(counts: &[u32], ratchet: u32) -> u32 {
    counts.iter().map(|count| count.div_ceil(ratchet)).sum()
}
