//! The largest material that a header allows: 1,024 chunks of 256 keys, and
//! eight logs filled to the last byte.

use pahyndoi::model::{self, Material, Set, State, plain_hmac};
use pahyndoi::{append_raw, close_raw};

use crate::calls::assert_same_material;
use crate::device::Shape;
use crate::presentation::{Presentation, length_bytes};
use crate::random::Random;
use crate::sets::{in_effect, set};

const PHASES: usize = 8;
const CHUNK_COUNT: usize = 1024;
const RATCHET: usize = 256;
pub const ITEMS: usize = CHUNK_COUNT * RATCHET;

/// What is written: entries of one length, and a close behind some of them.
#[derive(Clone, Copy, Debug)]
pub struct Plan {
    pub own_set: Option<Set>,
    /// The data length of every entry.
    data_length: usize,
    /// The entries of each chunk; the others are fillers.
    entries_in_a_chunk: usize,
}

/// With kind 1, with the shortest items and logs, and with the longest.
pub const PLANS: [Plan; 3] = [
    Plan {
        own_set: None,
        data_length: 1,
        entries_in_a_chunk: 64,
    },
    Plan {
        own_set: Some(set(16, 1, 512)),
        data_length: 1,
        entries_in_a_chunk: 4,
    },
    Plan {
        own_set: Some(set(32, 4096, 65_536)),
        data_length: 8,
        entries_in_a_chunk: 64,
    },
];

impl Plan {
    fn set(&self) -> Set {
        in_effect(self.own_set)
    }

    /// The bytes of each log.
    pub fn log_length(&self) -> u32 {
        self.set().log_capacity
    }

    fn entry_count(&self) -> usize {
        CHUNK_COUNT * self.entries_in_a_chunk
    }

    fn shape(&self) -> Shape {
        let (entry, filler) = (self.set().entry_length(), self.set().filler_length());
        let entries = self.entry_count();
        Shape {
            own_set: self.own_set,
            phases: PHASES,
            chunk_count: CHUNK_COUNT,
            ratchet: RATCHET,
            seal_memory: entry * entries + filler * (ITEMS - entries),
        }
    }

    /// Whether a close follows the entry.
    fn closes_behind(&self, entry: usize) -> bool {
        (entry + 1) % self.entries_in_a_chunk == 0
    }

    /// The item number of an entry.
    fn number(&self, entry: usize) -> u64 {
        let (chunk, offset) = (
            entry / self.entries_in_a_chunk,
            entry % self.entries_in_a_chunk,
        );
        (chunk * RATCHET + offset) as u64
    }
}

/// Written by library and model, byte for byte the same.
pub fn material(random: &mut Random, plan: &Plan) -> Presentation {
    let start = plan.shape().material(random);
    let data = random.bytes(plan.entry_count() * plan.data_length);
    assert_eq!(data.len(), start.log_memory.len());
    let left = write_by_library(plan, &start, &data);
    assert_same_material(&left, &write_by_model(plan, &start, &data));
    Presentation {
        device_store: left.store,
        auditor_store: start.store,
        log_memory: left.log_memory,
        length_bytes: length_bytes(&[plan.log_length(); PHASES]),
        seal_file: left.seal_memory,
    }
}

/// The phase of an entry.
fn phase(entry: usize) -> u8 {
    (entry % PHASES) as u8 + 1
}

fn write_by_library(plan: &Plan, start: &Material, data: &[u8]) -> Material {
    let Material {
        mut store,
        log_memory: mut logs,
        seal_memory: mut seal,
    } = start.clone();
    let mut state = pahyndoi::State::default();
    for (entry, data) in data.chunks(plan.data_length).enumerate() {
        let phase = phase(entry);
        let answer = append_raw(&mut state, &mut store, &mut logs, &mut seal, phase, data);
        assert_eq!(answer, plan.number(entry));
        if plan.closes_behind(entry) {
            let answer = close_raw(&mut state, &store, &logs, &mut seal);
            assert_eq!(answer, (RATCHET - plan.entries_in_a_chunk) as u64);
        }
    }
    Material {
        store,
        log_memory: logs,
        seal_memory: seal,
    }
}

fn write_by_model(plan: &Plan, start: &Material, data: &[u8]) -> Material {
    let mut material = start.clone();
    let mut state = State::default();
    for (entry, data) in data.chunks(plan.data_length).enumerate() {
        model::append(plain_hmac, &mut material, &mut state, phase(entry), data);
        if plan.closes_behind(entry) {
            model::close(plain_hmac, &mut material, &mut state);
        }
    }
    material
}
