//! The script: sealing under several shapes of store, restarts behind a cut,
//! audits of what they leave and of what is forged, lookups of bytes, each
//! refusal at its two sides, and their order; plans; the same edges in stores
//! with a set of their own.

mod audits;
mod fit;
mod limits;
mod lookups;
mod order;
mod plans;
mod restarts;
mod sealing;
mod sets;
mod stores;

use pahyndoi::model::Set;

use crate::interpreter::Machine;
use crate::record::*;

/// The kind of a store with a set of its own.
const OWN_SET_KIND: u8 = 6;

/// The bytes before the chunks, without a set and with one.
const HEADER_LENGTH: u32 = 18;
const OWN_SET_HEADER_LENGTH: u32 = 27;

const CHUNK_LENGTH: u32 = 32;
const LOG_CAPACITY: u32 = 8192;

/// The script's bytes.
pub fn script() -> Vec<u8> {
    let mut script = Script {
        records: Vec::new(),
        machine: Machine::new(),
    };
    sealing::groups(&mut script);
    stores::groups(&mut script);
    fit::groups(&mut script);
    limits::groups(&mut script);
    order::groups(&mut script);
    restarts::groups(&mut script);
    audits::groups(&mut script);
    lookups::groups(&mut script);
    plans::groups(&mut script);
    sets::groups(&mut script);
    assert!(
        script.records.len() <= SCRIPT_LIMIT,
        "the script is too long"
    );
    script.records
}

/// What a record of new material says.
#[derive(Clone, Copy)]
struct Shape {
    kind: u8,
    phases: u8,
    own_set: Option<Set>,
    chunk_count: u32,
    ratchet: u32,
    store_length: u32,
    log_memory: u32,
    seal_memory: u32,
}

impl Shape {
    /// Lengths as `docs/FORMAT.md`, 2 and 4, has them, where phases and chunk
    /// count are in range.
    fn of(phases: u8, chunk_count: u32, ratchet: u32, seal_memory: u32) -> Shape {
        let chunks_length = chunk_count.wrapping_mul(CHUNK_LENGTH);
        Shape {
            kind: 1,
            phases,
            own_set: None,
            chunk_count,
            ratchet,
            store_length: chunks_length + HEADER_LENGTH,
            log_memory: LOG_CAPACITY * u32::from(phases.min(8)),
            seal_memory,
        }
    }

    /// The same for a store with a set of its own.
    fn own(set: Set, phases: u8, chunk_count: u32, ratchet: u32, seal_memory: u32) -> Shape {
        Shape {
            kind: OWN_SET_KIND,
            own_set: Some(set),
            store_length: chunk_count * CHUNK_LENGTH + OWN_SET_HEADER_LENGTH,
            log_memory: set.log_capacity * u32::from(phases),
            ..Shape::of(phases, chunk_count, ratchet, seal_memory)
        }
    }
}

struct Script {
    records: Vec<u8>,
    /// What the records so far bring about.
    machine: Machine,
}

impl Script {
    fn label(&mut self, text: &str) {
        self.push(LABEL, &[(1, text.as_bytes())]);
    }

    fn material(&mut self, shape: Shape) {
        let set = shape.own_set.map(set_bytes).unwrap_or_default();
        self.push(
            MATERIAL,
            &[
                (1, &[shape.kind, shape.phases, set.len() as u8]),
                (4, &shape.chunk_count.to_le_bytes()),
                (8, &shape.ratchet.to_le_bytes()),
                (12, &shape.store_length.to_le_bytes()),
                (16, &shape.log_memory.to_le_bytes()),
                (20, &shape.seal_memory.to_le_bytes()),
                (SET_START, &set),
            ],
        );
    }

    /// New material, with lengths as they ought to be.
    fn fresh(&mut self, phases: u8, chunk_count: u32, ratchet: u32, seal_memory: u32) {
        self.material(Shape::of(phases, chunk_count, ratchet, seal_memory));
    }

    fn open(&mut self, log_lengths: &[u32], seal_length: u64) {
        self.push(
            OPEN,
            &[
                (1, &[log_lengths.len() as u8]),
                (8, &seal_length.to_le_bytes()),
                (LENGTHS_START, &number_bytes(log_lengths)),
            ],
        );
    }

    fn append(&mut self, phase: u8, data_length: u32, first: u8) {
        self.push(
            APPEND,
            &[
                (1, &[phase]),
                (4, &data_length.to_le_bytes()),
                (8, &[first]),
            ],
        );
    }

    fn close(&mut self) {
        self.push(CLOSE, &[]);
    }

    fn restart(&mut self, number: u32) {
        self.push(RESTART, &[(4, &number.to_le_bytes())]);
    }

    fn set_chunk(&mut self, number: u32) {
        self.push(
            SET_STATE,
            &[(1, &[FIELD_CHUNK]), (4, &number.to_le_bytes())],
        );
    }

    fn set_offset(&mut self, offset: u32) {
        self.push(
            SET_STATE,
            &[(1, &[FIELD_OFFSET]), (4, &offset.to_le_bytes())],
        );
    }

    fn set_seal_length(&mut self, length: u64) {
        self.push(
            SET_STATE,
            &[(1, &[FIELD_SEAL_LENGTH]), (8, &length.to_le_bytes())],
        );
    }

    fn set_log_length(&mut self, index: u8, length: u32) {
        self.push(
            SET_STATE,
            &[(1, &[FIELD_LOG_LENGTH, index]), (4, &length.to_le_bytes())],
        );
    }

    fn set_held_key(&mut self, byte: u8) {
        self.push(SET_STATE, &[(1, &[FIELD_HELD_KEY, byte])]);
    }

    fn set_store(&mut self, index: u32, value: u8) {
        self.set_bytes(MEMORY_STORE, index, &[value]);
    }

    fn set_bytes(&mut self, memory: u8, index: u32, bytes: &[u8]) {
        self.push(
            SET_BYTES,
            &[
                (1, &[memory, bytes.len() as u8]),
                (4, &index.to_le_bytes()),
                (BYTES_START, bytes),
            ],
        );
    }

    fn set_length(&mut self, memory: u8, length: u32) {
        self.push(SET_LENGTH, &[(1, &[memory]), (4, &length.to_le_bytes())]);
    }

    fn keep(&mut self) {
        self.push(KEEP, &[]);
    }

    fn audit(&mut self, log_lengths: &[u32], seal_length: u32) {
        self.push(
            AUDIT,
            &[
                (1, &[log_lengths.len() as u8]),
                (4, &seal_length.to_le_bytes()),
                (LENGTHS_START, &number_bytes(log_lengths)),
            ],
        );
    }

    fn look_up(&mut self, log_lengths: &[u32], seal_length: u32, phase: u8, offset: u32) {
        self.push(
            LOOKUP,
            &[
                (1, &[log_lengths.len() as u8, phase]),
                (4, &seal_length.to_le_bytes()),
                (8, &offset.to_le_bytes()),
                (LENGTHS_START, &number_bytes(log_lengths)),
            ],
        );
    }

    /// All counts but twelve in a row must be the same.
    fn plan(&mut self, counts: &[u32], chunk_count: u32) {
        let (first, other) = unlisted(counts).expect("counts that a record can say");
        let listed = counts.get(first..).unwrap_or_default();
        let listed = &listed[..listed.len().min(LISTED_COUNTS)];
        self.push(
            PLAN,
            &[
                (1, &[counts.len() as u8, first as u8]),
                (4, &chunk_count.to_le_bytes()),
                (8, &other.to_le_bytes()),
                (LISTED_START, &number_bytes(listed)),
            ],
        );
    }

    /// The last call must have given this refusal and this number.
    fn assert_answer(&self, answer: (u32, u32)) {
        let given = self.machine.answer;
        assert_eq!((given.refusal, given.number), answer);
    }

    /// A record with these bytes at these places and zeros elsewhere.
    fn push(&mut self, operation: u8, parts: &[(usize, &[u8])]) {
        let mut record = [0; RECORD_LENGTH];
        record[0] = operation;
        for (start, bytes) in parts {
            record[*start..start + bytes.len()].copy_from_slice(bytes);
        }
        self.machine.step(&record);
        self.records.extend(record);
    }
}

/// Where a record's listed counts may begin, and the count that all others are.
fn unlisted(counts: &[u32]) -> Option<(usize, u32)> {
    (0..=COUNTS_LIMIT - LISTED_COUNTS).find_map(|first| {
        let listed = first..first + LISTED_COUNTS;
        let mut others = (0..counts.len()).filter(|index| !listed.contains(index));
        let other = others.next().map_or(0, |index| counts[index]);
        let same = others.all(|index| counts[index] == other);
        same.then_some((first, other))
    })
}

/// A set as a header has it.
fn set_bytes(set: Set) -> Vec<u8> {
    let numbers = number_bytes(&[set.data_limit, set.log_capacity]);
    [&[set.tag_length], &numbers[..]].concat()
}

/// The bytes before the chunks of a store.
fn header_length(store: &[u8]) -> usize {
    let length = match store[0] {
        OWN_SET_KIND => OWN_SET_HEADER_LENGTH,
        _ => HEADER_LENGTH,
    };
    length as usize
}

/// A chunk of zeros but for these bytes, each behind its index.
fn nearly_burned(left: &[(usize, u8)]) -> [u8; CHUNK_LENGTH as usize] {
    let mut chunk = [0; CHUNK_LENGTH as usize];
    for (index, byte) in left {
        chunk[*index] = *byte;
    }
    chunk
}

fn number_bytes(numbers: &[u32]) -> Vec<u8> {
    let numbers = numbers.iter();
    numbers.flat_map(|number| number.to_le_bytes()).collect()
}
