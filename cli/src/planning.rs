//! What a card needs before it is packed.

use crate::{Refusal, least_ratchet_raw};

/// The least ratchet from 1 to 256 with which so many chunks last for the
/// counts: how many entries are to be appended before each close. `None` where
/// they last with none of these.
///
/// Refused by 25: more than 64 counts, a count above 65,536, or a chunk count
/// outside 1 to 1,024.
pub fn least_ratchet(counts: &[u32], chunks: u32) -> Result<Option<u32>, Refusal> {
    let answer = least_ratchet_raw(counts, chunks);
    let (refusal, ratchet) = ((answer >> 32) as u32, answer as u32);
    match refusal {
        0 => Ok(Some(ratchet).filter(|ratchet| *ratchet > 0)),
        refusal => Err(Refusal(refusal)),
    }
}
