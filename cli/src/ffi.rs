//! The C calls of the static library, as `include/pahyndoi.h` declares them.

use std::fmt;

use crate::DIGEST_LENGTH;

unsafe extern "C" {
    fn pahyndoi_sha256(message: *const u8, message_length: usize, digest: *mut u8) -> u32;
    fn pahyndoi_hmac_sha256(
        key: *const u8,
        key_length: usize,
        message: *const u8,
        message_length: usize,
        wanted: usize,
        tag: *mut u8,
    ) -> u32;
    fn pahyndoi_open(
        state: *mut State,
        store: *const u8,
        store_length: usize,
        logs: *const u8,
        logs_length: usize,
        lengths: *const u32,
        lengths_count: usize,
        seal: *const u8,
        seal_memory_length: usize,
        seal_length: u64,
    ) -> u64;
    fn pahyndoi_append(
        state: *mut State,
        store: *mut u8,
        store_length: usize,
        logs: *mut u8,
        logs_length: usize,
        seal: *mut u8,
        seal_memory_length: usize,
        phase: u8,
        data: *const u8,
        data_length: usize,
    ) -> u64;
    fn pahyndoi_close(
        state: *mut State,
        store: *const u8,
        store_length: usize,
        logs: *const u8,
        logs_length: usize,
        seal: *mut u8,
        seal_memory_length: usize,
    ) -> u64;
    fn pahyndoi_restart(
        state: *mut State,
        store: *mut u8,
        store_length: usize,
        logs: *const u8,
        logs_length: usize,
        seal: *mut u8,
        seal_memory_length: usize,
        number: u32,
    ) -> u64;
    fn pahyndoi_audit(
        device: *const u8,
        device_length: usize,
        auditor: *const u8,
        auditor_length: usize,
        logs: *const u8,
        logs_length: usize,
        lengths: *const u8,
        lengths_length: usize,
        seal: *const u8,
        seal_length: usize,
    ) -> u64;
    fn pahyndoi_item_at(
        device: *const u8,
        device_length: usize,
        auditor: *const u8,
        auditor_length: usize,
        logs: *const u8,
        logs_length: usize,
        lengths: *const u8,
        lengths_length: usize,
        seal: *const u8,
        seal_length: usize,
        phase: u8,
        offset: u32,
    ) -> u64;
    fn pahyndoi_data_at(
        device: *const u8,
        device_length: usize,
        auditor: *const u8,
        auditor_length: usize,
        logs: *const u8,
        logs_length: usize,
        lengths: *const u8,
        lengths_length: usize,
        seal: *const u8,
        seal_length: usize,
        phase: u8,
        offset: u32,
    ) -> u64;
    fn pahyndoi_least_ratchet(counts: *const u32, counts_count: usize, chunks: u32) -> u64;
}

/// The sealing state, laid out as `struct pahyndoi_state`.
#[repr(C)]
#[derive(Clone, Copy, Default, PartialEq, Eq)]
pub struct State {
    pub chunk: u32,
    pub offset: u32,
    pub key: [u8; 32],
    pub lengths: [u32; 8],
    pub seal_length: u64,
}

/// All but the held key, which belongs in no log.
impl fmt::Debug for State {
    fn fmt(&self, formatter: &mut fmt::Formatter<'_>) -> fmt::Result {
        formatter
            .debug_struct("State")
            .field("chunk", &self.chunk)
            .field("offset", &self.offset)
            .field("lengths", &self.lengths)
            .field("seal_length", &self.seal_length)
            .finish_non_exhaustive()
    }
}

/// Fills the state and gives the call's answer: the refusal times 2^32.
pub fn open_raw(
    state: &mut State,
    store: &[u8],
    logs: &[u8],
    lengths: &[u32],
    seal: &[u8],
    seal_length: u64,
) -> u64 {
    // SAFETY: each slice is readable for its length and no pointer is null;
    // the state is borrowed mutably and overlaps none of them.
    unsafe {
        pahyndoi_open(
            state,
            store.as_ptr(),
            store.len(),
            logs.as_ptr(),
            logs.len(),
            lengths.as_ptr(),
            lengths.len(),
            seal.as_ptr(),
            seal.len(),
            seal_length,
        )
    }
}

/// Seals the data and gives the call's answer: chunk number times N plus offset
/// of its key, N being the ratchet, or the refusal times 2^32; then nothing is
/// altered.
pub fn append_raw(
    state: &mut State,
    store: &mut [u8],
    logs: &mut [u8],
    seal: &mut [u8],
    phase: u8,
    data: &[u8],
) -> u64 {
    // SAFETY: each slice is readable for its length and no pointer is null;
    // state, store, logs and seal are borrowed mutably, so nothing overlaps.
    unsafe {
        pahyndoi_append(
            state,
            store.as_mut_ptr(),
            store.len(),
            logs.as_mut_ptr(),
            logs.len(),
            seal.as_mut_ptr(),
            seal.len(),
            phase,
            data.as_ptr(),
            data.len(),
        )
    }
}

/// Writes the fillers that are due and gives the call's answer: their number,
/// or the refusal times 2^32; then nothing is altered.
pub fn close_raw(state: &mut State, store: &[u8], logs: &[u8], seal: &mut [u8]) -> u64 {
    // SAFETY: each slice is readable for its length and no pointer is null;
    // state and seal are borrowed mutably, so nothing overlaps them.
    unsafe {
        pahyndoi_close(
            state,
            store.as_ptr(),
            store.len(),
            logs.as_ptr(),
            logs.len(),
            seal.as_mut_ptr(),
            seal.len(),
        )
    }
}

/// Seals the number of items that a cut chunk had and gives the call's answer:
/// chunk number times N, N being the ratchet, or the refusal times 2^32; then
/// nothing is altered.
pub fn restart_raw(
    state: &mut State,
    store: &mut [u8],
    logs: &[u8],
    seal: &mut [u8],
    number: u32,
) -> u64 {
    // SAFETY: each slice is readable for its length and no pointer is null;
    // state, store and seal are borrowed mutably, so nothing overlaps them.
    unsafe {
        pahyndoi_restart(
            state,
            store.as_mut_ptr(),
            store.len(),
            logs.as_ptr(),
            logs.len(),
            seal.as_mut_ptr(),
            seal.len(),
            number,
        )
    }
}

/// Audits the material and gives the call's answer: the item count when it is
/// accepted, else the refusal times 2^32 plus the item's number.
pub fn audit_raw(device: &[u8], auditor: &[u8], logs: &[u8], lengths: &[u8], seal: &[u8]) -> u64 {
    // SAFETY: each slice is readable for its length and no pointer is null;
    // nothing is written.
    unsafe {
        pahyndoi_audit(
            device.as_ptr(),
            device.len(),
            auditor.as_ptr(),
            auditor.len(),
            logs.as_ptr(),
            logs.len(),
            lengths.as_ptr(),
            lengths.len(),
            seal.as_ptr(),
            seal.len(),
        )
    }
}

/// Looks a byte up and gives the call's answer: the item's number, else the
/// refusal times 2^32 plus the number that the audit names.
pub fn item_at_raw(
    device: &[u8],
    auditor: &[u8],
    logs: &[u8],
    lengths: &[u8],
    seal: &[u8],
    phase: u8,
    offset: u32,
) -> u64 {
    // SAFETY: each slice is readable for its length and no pointer is null;
    // nothing is written.
    unsafe {
        pahyndoi_item_at(
            device.as_ptr(),
            device.len(),
            auditor.as_ptr(),
            auditor.len(),
            logs.as_ptr(),
            logs.len(),
            lengths.as_ptr(),
            lengths.len(),
            seal.as_ptr(),
            seal.len(),
            phase,
            offset,
        )
    }
}

/// Looks a byte up and gives the call's answer: the place of the item's data
/// in the log memory times 2^32 plus their length, or 0 where refused.
pub fn data_at_raw(
    device: &[u8],
    auditor: &[u8],
    logs: &[u8],
    lengths: &[u8],
    seal: &[u8],
    phase: u8,
    offset: u32,
) -> u64 {
    // SAFETY: each slice is readable for its length and no pointer is null;
    // nothing is written.
    unsafe {
        pahyndoi_data_at(
            device.as_ptr(),
            device.len(),
            auditor.as_ptr(),
            auditor.len(),
            logs.as_ptr(),
            logs.len(),
            lengths.as_ptr(),
            lengths.len(),
            seal.as_ptr(),
            seal.len(),
            phase,
            offset,
        )
    }
}

/// Writes the digest and gives the call's number: 0, or 1 when the message is
/// refused; then the digest is 32 zeros.
pub fn sha256_raw(message: &[u8], digest: &mut [u8; DIGEST_LENGTH]) -> u32 {
    // SAFETY: the slice is readable for its length and its pointer is never
    // null; the array is writable for 32 bytes and, being borrowed mutably,
    // does not overlap the slice.
    unsafe { pahyndoi_sha256(message.as_ptr(), message.len(), digest.as_mut_ptr()) }
}

/// Writes the wanted number of bytes from the tag's front, zeros behind them,
/// and gives the call's number: 0, or 1 when the key or the message is refused
/// and 26 when the wanted number is; then the tag is 32 zeros.
pub fn hmac_sha256_raw(
    key: &[u8],
    message: &[u8],
    wanted: usize,
    tag: &mut [u8; DIGEST_LENGTH],
) -> u32 {
    // SAFETY: both slices are readable for their lengths and their pointers
    // are never null; the array is writable for 32 bytes and, being borrowed
    // mutably, overlaps neither slice.
    unsafe {
        pahyndoi_hmac_sha256(
            key.as_ptr(),
            key.len(),
            message.as_ptr(),
            message.len(),
            wanted,
            tag.as_mut_ptr(),
        )
    }
}

/// Plans a ratchet and gives the call's answer: the least that lasts, 0 where
/// none does, 25 times 2^32 where refused.
pub fn least_ratchet_raw(counts: &[u32], chunks: u32) -> u64 {
    // SAFETY: the slice is readable for its length, aligned and not null;
    // nothing is written.
    unsafe { pahyndoi_least_ratchet(counts.as_ptr(), counts.len(), chunks) }
}
