//! Random calls, good and bad.

use pahyndoi::model::{Call, Set};

use crate::device::Device;
use crate::random::Random;

/// Lengths of data around the limit of kind 1 and around the largest one. The
/// last ones lose their high bits in 16 and in 8.
const DATA_LENGTHS: [usize; 12] = [
    0,
    1,
    2,
    63,
    511,
    512,
    513,
    4095,
    4096,
    4097,
    65_537,
    256 * 256 * 2 + 16,
];

/// Where a close or a restart might just fill the seal memory, it is made often.
pub fn random_call(random: &mut Random, device: &Device) -> Call {
    let fillers = device.fillers_due() * device.set().filler_length();
    let restart = device.set().restart_length();
    match random.up_to(11) {
        0..=4 if fillers > 0 && nearly_fill(device, fillers) => Call::Close,
        0..=4 if fillers == 0 && nearly_fill(device, restart) => random_restart(random, device),
        0..=6 => random_append(random, device),
        7 => Call::Close,
        8 | 9 => random_restart(random, device),
        _ => random_open(random, device),
    }
}

fn random_restart(random: &mut Random, device: &Device) -> Call {
    let ratchet = device.header().map_or(256, |header| header.ratchet);
    let number = random_number(random, ratchet);
    Call::Restart { number }
}

/// Mostly one that a restart may have, often at the ends; else one beyond them,
/// or one with high bits that are lost in 16 or 8.
pub fn random_number(random: &mut Random, ratchet: u32) -> u32 {
    let inside = random.between(1, ratchet.max(2) as usize - 1) as u32;
    match random.up_to(9) {
        0 => 0,
        1 => ratchet,
        2 => random.pick(&[ratchet + 1, 256, 257, u32::MAX]),
        3 => inside | random.pick(&[1 << 8, 1 << 16, 1 << 31]),
        4 => 1,
        5 | 6 => ratchet - 1,
        _ => inside,
    }
}

/// Whether so many bytes more end within a byte of the seal memory's end.
fn nearly_fill(device: &Device, length: usize) -> bool {
    let filled = device.state.seal_length.saturating_add(length as u64);
    filled.abs_diff(device.material.seal_memory.len() as u64) <= 1
}

fn random_append(random: &mut Random, device: &Device) -> Call {
    let phases = usize::from(device.header().map_or(8, |header| header.phases));
    let phase = match random.up_to(24) {
        0 => 0,
        1 => phases + 1,
        2 => random.pick(&[9, 128, 255]),
        _ => random.between(1, phases),
    };
    let length = data_length(random, device, phase);
    Call::Append {
        phase: phase as u8,
        data: random.bytes(length),
    }
}

fn data_length(random: &mut Random, device: &Device, phase: usize) -> usize {
    let used = match phase {
        1..=8 => device.state.log_lengths[phase - 1] as usize,
        _ => 0,
    };
    let set = device.set();
    let limit = set.data_limit as usize;
    let free = (set.log_capacity as usize).saturating_sub(used);
    match random.up_to(15) {
        0 => random.pick(&DATA_LENGTHS),
        1 => free.min(limit + 1),
        2 => (free + 1).min(limit + 1),
        3 | 4 => random.between(1, limit),
        5..=7 => limit,
        _ => random.between(1, limit.min(40)),
    }
}

/// Mostly with the lengths of the state; else with too many, too few, too
/// large or other ones.
fn random_open(random: &mut Random, device: &Device) -> Call {
    let phases = usize::from(device.header().map_or(8, |header| header.phases));
    let Set { log_capacity, .. } = device.set();
    let mut log_lengths = device.state.log_lengths.to_vec();
    log_lengths.truncate(phases);
    match random.up_to(11) {
        0 => log_lengths.push(0),
        1 => log_lengths.truncate(phases - 1),
        2 => log_lengths.clear(),
        3 => log_lengths.resize(random.up_to(20), 0),
        4 => {
            let lengths = [log_capacity + 1, u32::MAX, 1 << 16, log_capacity];
            log_lengths[random.index(phases)] = random.pick(&lengths);
        }
        5 => log_lengths.fill_with(|| random.up_to(log_capacity as usize) as u32),
        _ => (),
    }
    Call::Open {
        log_lengths,
        seal_length: seal_length(random, device),
    }
}

fn seal_length(random: &mut Random, device: &Device) -> u64 {
    let end = device.material.seal_memory.len() as u64;
    match random.up_to(9) {
        0 => end,
        1 => end + 1,
        2 => random.pick(&[u64::MAX, 1 << 32, end + (1 << 32), 1 << 63]),
        3 => random.up_to(end as usize) as u64,
        _ => device.state.seal_length,
    }
}
