//! HMAC (RFC 2104) over SHA-256.

use super::sha256::{BLOCK_LENGTH, DIGEST_LENGTH, sha256};

const INNER_PAD: u8 = 0x36;
const OUTER_PAD: u8 = 0x5c;

/// `H(K ^ opad, H(K ^ ipad, message))`, RFC 2104 section 2.
pub fn hmac_sha256(key: &[u8], message: &[u8]) -> [u8; DIGEST_LENGTH] {
    let key = block_key(key);
    let inner = sha256(&padded(&key, INNER_PAD, message));
    sha256(&padded(&key, OUTER_PAD, &inner))
}

/// The key brought to one block: hashed if longer, then filled with zeros.
fn block_key(key: &[u8]) -> [u8; BLOCK_LENGTH] {
    let mut block = [0; BLOCK_LENGTH];
    if key.len() > BLOCK_LENGTH {
        block[..DIGEST_LENGTH].copy_from_slice(&sha256(key));
    } else {
        block[..key.len()].copy_from_slice(key);
    }
    block
}

fn padded(key: &[u8; BLOCK_LENGTH], pad: u8, text: &[u8]) -> Vec<u8> {
    let mut bytes = Vec::with_capacity(BLOCK_LENGTH + text.len());
    bytes.extend(key.iter().map(|byte| byte ^ pad));
    bytes.extend_from_slice(text);
    bytes
}
