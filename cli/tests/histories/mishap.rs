//! What can befall a device between two calls: another store, memories of
//! another length, a state that does not fit.

use pahyndoi::model::{Header, KEY_LENGTH, Set};

use crate::device::{Device, header_length};
use crate::random::Random;
use crate::sets;

pub fn strike(random: &mut Random, device: &mut Device) {
    let set = device.set();
    match random.up_to(10) {
        0 => resize_store(random, &mut device.material.store),
        1 => alter_header(random, &mut device.material.store),
        2 | 3 => alter_chunk(random, &mut device.material.store),
        4 => resize_logs(random, set, &mut device.material.log_memory),
        5 => resize_seal_memory(random, device),
        6 => alter_position(random, device),
        7 => alter_lengths(random, device),
        8 => alter_seal_length(random, device),
        9 => exchange_set(random, device),
        _ => device.state.held_key = random.bytes(32).try_into().expect("32 bytes"),
    }
}

/// Shortens or lengthens by a little, by a chunk, or to next to nothing.
pub fn resize_store(random: &mut Random, store: &mut Vec<u8>) {
    let length = store.len();
    let new = match random.up_to(5) {
        0 => length - 1,
        1 => length + 1,
        2 => length + 32,
        3 => length.saturating_sub(32),
        4 => random.pick(&[0, 1, 17, 18, 19, 26, 27, 28]),
        _ => random.up_to(length),
    };
    store.resize(new, random.next() as u8);
}

/// The kind, the phases, a count, or a single bit. The store has a header.
pub fn alter_header(random: &mut Random, store: &mut [u8]) {
    let length = header_length(store);
    match random.up_to(4) {
        0 => store[0] = random.pick(&[0, 1, 2, 3, 5, 6, 7, 255]),
        1 => store[9] = random.pick(&[0, 1, 2, 8, 9, 255]),
        2 => write_number(store, 10, random.pick(&[0, 1, 2, 1024, 1025, u32::MAX])),
        3 => write_number(store, 14, random.pick(&[0, 1, 2, 256, 257, u32::MAX])),
        _ => store[random.index(length)] ^= 1 << random.up_to(7),
    }
}

/// Gives a well-formed store another set, in range or not, or makes it one of
/// the other kind. The chunks stay.
pub fn alter_set(random: &mut Random, store: &mut Vec<u8>) {
    let Some(header) = Header::parse(store) else {
        return;
    };
    let set = header.set();
    let own_set = match (random.up_to(3), header.own_set) {
        (0, Some(_)) => None,
        (0, None) => Some(set),
        (1, _) => Some(sets::beyond(random, set)),
        _ => Some(sets::other(random, set)),
    };
    put_set(store, own_set);
}

/// Exchanges the set of a well-formed store for this one.
pub fn put_set(store: &mut Vec<u8>, own_set: Option<Set>) {
    let header = Header::parse(store).expect("a store");
    let new = Header { own_set, ..header };
    store.splice(..header.length(), new.to_bytes());
}

fn write_number(bytes: &mut [u8], index: usize, number: u32) {
    bytes[index..index + 4].copy_from_slice(&number.to_le_bytes());
}

/// Burns a chunk, all of it or all but one byte, or writes it anew.
pub fn alter_chunk(random: &mut Random, store: &mut [u8]) {
    let first = header_length(store);
    let count = store.len().saturating_sub(first) / KEY_LENGTH;
    if count == 0 {
        return;
    }
    let start = first + KEY_LENGTH * random.index(count);
    let chunk = &mut store[start..start + KEY_LENGTH];
    match random.up_to(3) {
        0 => chunk.copy_from_slice(&random.bytes(32)),
        1 => {
            chunk.fill(0);
            chunk[random.pick(&[0, 1, 15, 30, 31])] = 1 << random.up_to(7);
        }
        _ => chunk.fill(0),
    }
}

pub fn resize_logs(random: &mut Random, set: Set, log_memory: &mut Vec<u8>) {
    let length = log_memory.len();
    let capacity = set.log_capacity as usize;
    let new = match random.up_to(4) {
        0 => length.saturating_sub(1),
        1 => length + 1,
        2 => length + capacity,
        3 => length.saturating_sub(capacity),
        _ => 0,
    };
    log_memory.resize(new, 0xee);
}

/// Another set in the store, mostly with log memory for it.
fn exchange_set(random: &mut Random, device: &mut Device) {
    alter_set(random, &mut device.material.store);
    match device.header() {
        Some(header) if !random.once_in(4) => {
            let length = header.log_memory_length();
            device.material.log_memory.resize(length, 0xee);
        }
        _ => (),
    }
}

/// So that about one item, no byte, or as much as a close needs is free behind
/// the seal file.
fn resize_seal_memory(random: &mut Random, device: &mut Device) {
    let used = device.state.seal_length.min(1 << 16) as usize;
    let (entry, filler) = (device.set().entry_length(), device.set().filler_length());
    let due = device.fillers_due() * filler;
    let restart = device.set().restart_length();
    let wanted = random.pick(&[0, filler, entry, restart, 2 * filler, due, due]);
    let new = match random.up_to(2) {
        0 => used + (wanted + random.up_to(2)).saturating_sub(1),
        1 => used.saturating_sub(1),
        _ => used + random.up_to(600),
    };
    device.material.seal_memory.resize(new, 0xdd);
}

fn alter_position(random: &mut Random, device: &mut Device) {
    let Some(header) = device.header() else {
        return;
    };
    let (count, ratchet) = (header.chunk_count, header.ratchet);
    let position = &mut device.state.position;
    match random.up_to(6) {
        0 => position.offset = random.pick(&[0, 1, ratchet - 1]),
        1 => position.offset = random.pick(&[ratchet, ratchet + 1, 256, u32::MAX]),
        2 => position.chunk = random.pick(&[count, count + 1, 1024, 1025, u32::MAX]),
        3 => position.chunk = position.chunk.wrapping_add(1),
        4 => position.chunk = position.chunk.wrapping_sub(1),
        5 => position.chunk |= 1 << random.between(11, 31),
        _ => (position.chunk, position.offset) = (position.offset, position.chunk),
    }
}

fn alter_lengths(random: &mut Random, device: &mut Device) {
    let Set { log_capacity, .. } = device.set();
    let near = log_capacity - 2 + random.up_to(3) as u32;
    let length = random.pick(&[0, 1, near, near, near, near, 1 << 16, u32::MAX]);
    device.state.log_lengths[random.up_to(7)] = length;
}

fn alter_seal_length(random: &mut Random, device: &mut Device) {
    let end = device.material.seal_memory.len() as u64;
    let entry = device.set().entry_length() as u64;
    let filler = device.set().filler_length() as u64;
    let due = device.fillers_due() as u64 * filler;
    let restart = device.set().restart_length() as u64;
    device.state.seal_length = match random.up_to(4) {
        0 => end,
        1 => end + 1,
        2 => random.pick(&[u64::MAX, u64::MAX - entry + 1, 1 << 32, (1 << 32) + end]),
        3 => {
            let free = random.pick(&[filler, entry, restart, due]) + random.up_to(2) as u64;
            end.saturating_sub(free.saturating_sub(1))
        }
        _ => random.up_to(end as usize) as u64,
    };
}
