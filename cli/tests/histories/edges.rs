//! Calls that came to an edge of what their set allows, on either side of it.

use pahyndoi::model::{Call, Header, Set};

use crate::answer::split;
use crate::device::Device;
use crate::tally::Tally;

/// What is counted, for a call that did its work and for a refused one.
pub const REACHED: [&str; 16] = [
    "log length as large as allowed",
    "log length one too large",
    "data as long as allowed",
    "data one byte too long",
    "log filled to its end",
    "log one byte too small",
    "entry to the end of the seal memory",
    "entry one byte too long for it",
    "fillers to the end of the seal memory",
    "fillers one byte too long for it",
    "restart to the end of the seal memory",
    "restart one byte too long for it",
    "restart with the least number",
    "restart with a number one too small",
    "restart with the largest number",
    "restart with a number one too large",
];

/// What is counted if the call is refused by this rule, 0 if it is not refused.
pub type Edge = (u32, &'static str);

/// The edges that a call comes to, made on this device.
pub fn of(device: &Device, call: &Call) -> Vec<Edge> {
    match (device.header(), call) {
        (None, _) => Vec::new(),
        (Some(header), Call::Open { log_lengths, .. }) => of_open(header.set(), log_lengths),
        (Some(header), Call::Append { phase, data }) => {
            of_append(device, header.set(), *phase, data.len())
        }
        (Some(header), Call::Close) => of_close(device, header.set()),
        (Some(header), Call::Restart { number }) => of_restart(device, &header, *number),
    }
}

/// Counts those that the answer shows to be reached.
pub fn note(tally: &mut Tally, edges: &[Edge], answer: u64) {
    let (refusal, _) = split(answer);
    for (_, counted) in edges.iter().filter(|(rule, _)| *rule == refusal) {
        tally.count(counted, 1);
    }
}

fn of_open(set: Set, log_lengths: &[u32]) -> Vec<Edge> {
    let longest = log_lengths.iter().max().copied().unwrap_or(0);
    at_limit(longest.into(), set.log_capacity.into(), 5, &REACHED[..2])
}

fn of_append(device: &Device, set: Set, phase: u8, length: usize) -> Vec<Edge> {
    let index = usize::from(phase.clamp(1, 8)) - 1;
    let used = u64::from(device.state.log_lengths[index]);
    let length = length as u64;
    [
        at_limit(length, set.data_limit.into(), 8, &REACHED[2..4]),
        at_limit(used + length, set.log_capacity.into(), 9, &REACHED[4..6]),
        of_seal_memory(device, set.entry_length(), &REACHED[6..8]),
    ]
    .concat()
}

fn of_close(device: &Device, set: Set) -> Vec<Edge> {
    match device.fillers_due() {
        0 => Vec::new(),
        fillers => of_seal_memory(device, fillers * set.filler_length(), &REACHED[8..10]),
    }
}

/// By its number alone where nothing else refuses it by 27.
fn of_restart(device: &Device, header: &Header, number: u32) -> Vec<Edge> {
    let mut edges = of_seal_memory(device, header.set().restart_length(), &REACHED[10..12]);
    let by_number = [
        (1, (0, REACHED[12])),
        (0, (27, REACHED[13])),
        (header.ratchet - 1, (0, REACHED[14])),
        (header.ratchet, (27, REACHED[15])),
    ];
    if device.state.position.offset == 0 && device.has_burned_chunk() {
        let reached = by_number.into_iter().filter(|(edge, _)| *edge == number);
        edges.extend(reached.map(|(_, edge)| edge));
    }
    edges
}

fn of_seal_memory(device: &Device, length: usize, names: &[&'static str]) -> Vec<Edge> {
    let end = device.material.seal_memory.len() as u64;
    let used = device.state.seal_length;
    at_limit(used.saturating_add(length as u64), end, 10, names)
}

/// The first name for a number at its limit, the second for one beyond it.
fn at_limit(number: u64, limit: u64, rule: u32, names: &[&'static str]) -> Vec<Edge> {
    match number.checked_sub(limit) {
        Some(0) => vec![(0, names[0])],
        Some(1) => vec![(rule, names[1])],
        _ => Vec::new(),
    }
}
