//! What a device does: open, append, close and restart.

use crate::{Refusal, State, append_raw, close_raw, open_raw, restart_raw};

/// The sealing state of a device whose logs and seal file have these lengths.
///
/// `store` is the key store, which names the parameters that hold for every
/// call, `logs` the log memory, its log capacity for each phase, `lengths` one
/// number for each phase, and `seal` the whole seal memory, of which
/// `seal_length` bytes are in use. [`Parameters`](crate::Parameters) has the
/// sizes. Nothing lent is written. The state stands at the first chunk that is
/// not burned, offset 0.
///
/// Refused with 2 to 6. Open only while no chunk is half used, as after
/// [`close`], or where a power cut took the state of one that was: the keys left
/// of that chunk are gone, and [`restart`] must say so before the next entry.
pub fn open(
    store: &[u8],
    logs: &[u8],
    lengths: &[u32],
    seal: &[u8],
    seal_length: u64,
) -> Result<State, Refusal> {
    let mut state = State::default();
    let answer = open_raw(&mut state, store, logs, lengths, seal, seal_length);
    unpack(answer).map(|_| state)
}

/// Seals the data as one entry of its phase and answers the chunk number times N
/// plus the offset of its key, N being the ratchet: the item's number, as long
/// as no restart stands before it.
///
/// The data, 1 byte to the store's data limit, go behind the phase's log, and
/// one item, 18 bytes and the tag, goes behind the seal file. Where the item is
/// the first of its chunk, the chunk is burned in the store. The state steps on
/// to the next key; the key used can't be had from it any more.
///
/// Refused with 2, 3 and 6 to 11; then no byte of state, store, logs or seal
/// memory changes.
pub fn append(
    state: &mut State,
    store: &mut [u8],
    logs: &mut [u8],
    seal: &mut [u8],
    phase: u8,
    data: &[u8],
) -> Result<u64, Refusal> {
    unpack(append_raw(state, store, logs, seal, phase, data))
}

/// Uses up the keys left of a half used chunk with filler items, each 9 bytes
/// and the tag, and answers how many: none at offset 0.
///
/// Close before the state is lost, as when the power goes: an audit refuses a
/// burned chunk whose keys have not all sealed an item, unless a [`restart`]
/// follows it.
///
/// Refused with 2, 3, 6 and 10; then no byte of state or seal memory changes.
pub fn close(
    state: &mut State,
    store: &[u8],
    logs: &[u8],
    seal: &mut [u8],
) -> Result<u64, Refusal> {
    unpack(close_raw(state, store, logs, seal))
}

/// Goes on behind a chunk whose state a power cut took: seals, with the first
/// key of the next chunk, how many items the cut chunk had, and answers that
/// chunk's number times N, N being the ratchet.
///
/// `state` comes from [`open`] with the lengths reached, and `number` is how many
/// items the cut chunk has in the seal file. One item, 13 bytes and the tag, goes
/// behind the seal file, the chunk is burned in the store, and the state steps
/// on as in [`append`]. With another number than the true one the audit refuses
/// the item.
///
/// Refused with 2, 3, 6, 27 (a number outside 1 to N - 1, a state whose offset
/// is not 0, a store with no burned chunk), 10 and 11, in this order; then no
/// byte of state, store or seal memory changes.
pub fn restart(
    state: &mut State,
    store: &mut [u8],
    logs: &[u8],
    seal: &mut [u8],
    number: u32,
) -> Result<u64, Refusal> {
    unpack(restart_raw(state, store, logs, seal, number))
}

/// A call's count, or its refusal from the upper half of the answer.
fn unpack(answer: u64) -> Result<u64, Refusal> {
    match (answer >> 32) as u32 {
        0 => Ok(answer),
        refusal => Err(Refusal(refusal)),
    }
}
