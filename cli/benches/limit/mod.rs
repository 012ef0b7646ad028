//! libcrypto's low-level SHA-256 calls, and HMAC (RFC 2104) written over them.
//! They spare the look-up of the algorithm that libcrypto's one-shot calls do,
//! and use the processor's SHA instructions: the limit of what can be had.

use std::ffi::{c_int, c_void};

/// `SHA256_CTX` of `openssl/sha.h`, all its members 32-bit words.
#[repr(C)]
struct Context {
    hash: [u32; 8],
    bit_length: [u32; 2],
    block: [u32; 16],
    block_length: u32,
    digest_length: u32,
}

#[link(name = "crypto")]
unsafe extern "C" {
    #[link_name = "SHA256_Init"]
    fn init(context: *mut Context) -> c_int;
    #[link_name = "SHA256_Update"]
    fn update(context: *mut Context, data: *const c_void, length: usize) -> c_int;
    #[link_name = "SHA256_Final"]
    fn finish(digest: *mut u8, context: *mut Context) -> c_int;
}

/// The digest of two parts, one after the other.
fn digest(first: &[u8], second: &[u8]) -> [u8; 32] {
    let mut context = Context {
        hash: [0; 8],
        bit_length: [0; 2],
        block: [0; 16],
        block_length: 0,
        digest_length: 0,
    };
    let mut digest = [0; 32];
    // SAFETY: the context has the layout of SHA256_CTX and is initialised
    // first; the slices are readable for their lengths, the array is writable
    // for 32.
    unsafe {
        init(&mut context);
        update(&mut context, first.as_ptr().cast(), first.len());
        update(&mut context, second.as_ptr().cast(), second.len());
        finish(digest.as_mut_ptr(), &mut context);
    }
    digest
}

pub fn sha256(message: &[u8]) -> [u8; 32] {
    digest(message, &[])
}

/// For keys of at most one block.
pub fn hmac_sha256(key: &[u8], message: &[u8]) -> [u8; 32] {
    let mut inner_key = [0x36; 64];
    let mut outer_key = [0x5c; 64];
    for (i, byte) in key.iter().enumerate() {
        inner_key[i] ^= byte;
        outer_key[i] ^= byte;
    }
    digest(&outer_key, &digest(&inner_key, message))
}
