//! The rival in portable C, `sha256.c`, compiled by the build script.

#[link(name = "pahyndoi_rival", kind = "static")]
unsafe extern "C" {
    fn rival_sha256(message: *const u8, message_length: usize, digest: *mut u8);
    fn rival_hmac_sha256(
        key: *const u8,
        key_length: usize,
        message: *const u8,
        message_length: usize,
        tag: *mut u8,
    );
}

pub fn sha256(message: &[u8]) -> [u8; 32] {
    let mut digest = [0; 32];
    // SAFETY: the slice is readable for its length, the array writable for 32.
    unsafe { rival_sha256(message.as_ptr(), message.len(), digest.as_mut_ptr()) };
    digest
}

pub fn hmac_sha256(key: &[u8], message: &[u8]) -> [u8; 32] {
    let mut tag = [0; 32];
    // SAFETY: the slices are readable for their lengths, the array writable
    // for 32.
    unsafe {
        rival_hmac_sha256(
            key.as_ptr(),
            key.len(),
            message.as_ptr(),
            message.len(),
            tag.as_mut_ptr(),
        );
    }
    tag
}
