//! The key store of a device that has sealed nothing.

use pahyndoi::model::{Header, Set};

/// Chunks without a zero byte, behind a header of kind 6 with this set, or of
/// kind 1 where there is none.
pub fn unused_store(phases: u8, chunk_count: u32, ratchet: u32, own_set: Option<Set>) -> Vec<u8> {
    let header = Header {
        id: [1, 2, 3, 4, 5, 6, 7, 8],
        phases,
        chunk_count,
        ratchet,
        own_set,
    };
    let mut store = header.to_bytes();
    store.extend((0..chunk_count * 32).map(|index| (index * 7 % 255) as u8 + 1));
    store
}
