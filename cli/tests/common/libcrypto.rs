//! SHA-256 and HMAC-SHA-256 by the system's libcrypto, for comparison only.

use std::ffi::{c_int, c_uint, c_void};
use std::ptr;

#[link(name = "crypto")]
unsafe extern "C" {
    #[link_name = "SHA256"]
    fn crypto_sha256(data: *const u8, count: usize, digest: *mut u8) -> *mut u8;
    #[link_name = "EVP_sha256"]
    fn evp_sha256() -> *const c_void;
    #[link_name = "HMAC"]
    fn crypto_hmac(
        algorithm: *const c_void,
        key: *const c_void,
        key_length: c_int,
        data: *const u8,
        data_length: usize,
        tag: *mut u8,
        tag_length: *mut c_uint,
    ) -> *mut u8;
}

pub fn sha256(message: &[u8]) -> [u8; 32] {
    let mut digest = [0; 32];
    // SAFETY: the slice is readable for its length, the array writable for 32.
    let answer = unsafe { crypto_sha256(message.as_ptr(), message.len(), digest.as_mut_ptr()) };
    assert!(!answer.is_null(), "libcrypto's SHA256 failed");
    digest
}

pub fn hmac_sha256(key: &[u8], message: &[u8]) -> [u8; 32] {
    let key_length = c_int::try_from(key.len()).expect("key length fits an int");
    let mut tag = [0; 32];
    // SAFETY: the slices are readable for their lengths, the array is writable
    // for the 32 bytes of the algorithm's tag, and a null tag length is
    // allowed.
    let answer = unsafe {
        crypto_hmac(
            evp_sha256(),
            key.as_ptr().cast(),
            key_length,
            message.as_ptr(),
            message.len(),
            tag.as_mut_ptr(),
            ptr::null_mut(),
        )
    };
    assert!(!answer.is_null(), "libcrypto's HMAC failed");
    tag
}
