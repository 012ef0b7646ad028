//! Calls that write 32 bytes, run on a buffer with guard bytes around it.

use std::hint::black_box;

const DIGEST_LENGTH: usize = 32;
const GUARD_LENGTH: usize = 64;
const GUARD: u8 = 0xa5;

/// The call's number and the 32 bytes that it wrote at an address shifted by
/// `offset`. Fails where the call wrote outside them.
pub fn guarded(offset: usize, call: impl Fn(&mut [u8; 32]) -> u32) -> (u32, [u8; 32]) {
    let start = GUARD_LENGTH + offset;
    let end = start + DIGEST_LENGTH;
    let mut buffer = vec![GUARD; end + GUARD_LENGTH];
    let digest = <&mut [u8; 32]>::try_from(&mut buffer[start..end]).expect("32 bytes");
    let number = call(digest);
    let written = *digest;
    let buffer = black_box(buffer);
    let outside = buffer[..start].iter().chain(&buffer[end..]);
    assert!(
        outside.copied().all(|byte| byte == GUARD),
        "bytes around the output changed"
    );
    (number, written)
}
