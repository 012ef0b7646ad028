//! Hash and tag.

use crate::{Refusal, hmac_sha256_raw, sha256_raw};

/// The length in bytes of a digest and of a whole tag.
pub const DIGEST_LENGTH: usize = 32;

/// The longest message, and the longest key, in bytes.
pub const LENGTH_LIMIT: usize = 1_048_576;

/// The fewest bytes of a tag that may be wanted: half of the hash's, the least
/// that RFC 2104, section 5, recommends.
pub const SHORTEST_TAG: usize = 16;

/// The most bytes of a tag that may be wanted: all of them.
pub const LONGEST_TAG: usize = DIGEST_LENGTH;

/// The SHA-256 digest of a message of at most [`LENGTH_LIMIT`] bytes; a longer
/// one is refused with number 1.
pub fn sha256(message: &[u8]) -> Result<[u8; DIGEST_LENGTH], Refusal> {
    let mut digest = [0; DIGEST_LENGTH];
    accept(sha256_raw(message, &mut digest), digest)
}

/// The HMAC-SHA-256 tag of a message under a key: the wanted number of bytes
/// from its front, [`SHORTEST_TAG`] to [`LONGEST_TAG`], and zeros behind them.
///
/// Refused by 1: a key or a message of more than [`LENGTH_LIMIT`] bytes; then by
/// 26: another number wanted.
///
/// A verifier compares the wanted bytes in constant time, and fixes their number
/// itself: it must not come with the message.
pub fn hmac_sha256(
    key: &[u8],
    message: &[u8],
    wanted: usize,
) -> Result<[u8; DIGEST_LENGTH], Refusal> {
    let mut tag = [0; DIGEST_LENGTH];
    accept(hmac_sha256_raw(key, message, wanted, &mut tag), tag)
}

fn accept(number: u32, bytes: [u8; DIGEST_LENGTH]) -> Result<[u8; DIGEST_LENGTH], Refusal> {
    match number {
        0 => Ok(bytes),
        _ => Err(Refusal(number)),
    }
}
