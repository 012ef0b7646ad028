//! Runs a script through the model and gives what it prints.

use std::fmt::Write;
use std::ops::Range;

use pahyndoi::model::{self, Answer, Audited, Material, Position, Presented, State};
use pahyndoi::plain;

use crate::record::*;

const LOG_MEMORY_FILL: u8 = 0xee;
const SEAL_MEMORY_FILL: u8 = 0xdd;

pub fn run(script: &[u8]) -> String {
    let records = script.chunks_exact(RECORD_LENGTH);
    let rest = records.remainder();
    assert!(rest.is_empty(), "the script ends inside a record");
    let mut machine = Machine::new();
    for record in records {
        machine.step(record.try_into().expect("64 bytes"));
    }
    machine.output
}

struct Record<'a>(&'a [u8; RECORD_LENGTH]);

impl Record<'_> {
    fn byte(&self, index: usize) -> u8 {
        self.0[index]
    }

    fn number(&self, index: usize) -> u32 {
        u32::from_le_bytes(self.0[index..index + 4].try_into().expect("4 bytes"))
    }

    fn long_number(&self, index: usize) -> u64 {
        u64::from_le_bytes(self.0[index..index + 8].try_into().expect("8 bytes"))
    }

    /// The text from byte 1 to the first zero.
    fn text(&self) -> &str {
        let text = self.0[1..].split(|byte| *byte == 0).next();
        std::str::from_utf8(text.expect("a first part")).expect("ASCII")
    }

    /// As many of the nine lengths as byte 1 says.
    fn log_lengths(&self) -> Vec<u32> {
        let count = usize::from(self.byte(1));
        assert!(count <= LENGTHS_LIMIT, "{count} lengths");
        (0..count)
            .map(|index| self.number(LENGTHS_START + 4 * index))
            .collect()
    }

    /// As many counts as byte 1 says: the listed ones from their place on, and
    /// the other count before and behind them.
    fn counts(&self) -> Vec<u32> {
        let (count, first) = (usize::from(self.byte(1)), usize::from(self.byte(2)));
        assert!(count <= COUNTS_LIMIT, "{count} counts");
        let mut counts = vec![self.number(8); COUNTS_LIMIT];
        for (index, listed) in counts[first..][..LISTED_COUNTS].iter_mut().enumerate() {
            *listed = self.number(LISTED_START + 4 * index);
        }
        counts.truncate(count);
        counts
    }

    /// A number that is at most the limit.
    fn length(&self, index: usize, limit: u32) -> usize {
        let length = self.number(index);
        assert!(length <= limit, "length {length} at byte {index}");
        length as usize
    }
}

/// Chunks without a zero byte, memories of one byte repeated.
fn material(record: &Record) -> Material {
    let mut store = vec![record.byte(1), 1, 2, 3, 4, 5, 6, 7, 8, record.byte(2)];
    store.extend(record.number(4).to_le_bytes());
    store.extend(record.number(8).to_le_bytes());
    store.extend(&record.0[SET_START..][..usize::from(record.byte(3))]);
    let store_length = record.length(12, STORE_LIMIT);
    store.extend((store.len()..store_length).map(|j| ((j * 7 + 3) % 255) as u8 + 1));
    store.truncate(store_length);
    Material {
        store,
        log_memory: vec![LOG_MEMORY_FILL; record.length(16, LOG_MEMORY_LIMIT)],
        seal_memory: vec![SEAL_MEMORY_FILL; record.length(20, SEAL_MEMORY_LIMIT)],
    }
}

/// What the records have brought about.
pub struct Machine {
    pub material: Material,
    pub auditor_store: Vec<u8>,
    pub state: State,
    /// What the last call answered.
    pub answer: Answer,
    /// The part of the log memory that the last lookup gave.
    pub part: Range<usize>,
    output: String,
}

impl Machine {
    pub fn new() -> Machine {
        Machine {
            material: material(&Record(&[0; RECORD_LENGTH])),
            auditor_store: Vec::new(),
            state: State::default(),
            answer: Answer {
                refusal: 0,
                number: 0,
            },
            part: 0..0,
            output: String::new(),
        }
    }

    pub fn step(&mut self, record: &[u8; RECORD_LENGTH]) {
        let record = &Record(record);
        match record.byte(0) {
            LABEL => self.print(record.text()),
            MATERIAL => {
                self.material = material(record);
                self.auditor_store.clear();
                self.state = State::default();
            }
            OPEN => self.open(record),
            APPEND => self.append(record),
            CLOSE => {
                let answer = model::close(model::plain_hmac, &mut self.material, &mut self.state);
                self.print_call("close", answer);
            }
            SET_STATE => set_state(&mut self.state, record),
            SET_BYTES => self.set_bytes(record),
            SET_LENGTH => self.set_length(record),
            KEEP => self.auditor_store = self.material.store.clone(),
            AUDIT => self.audit(record),
            LOOKUP => self.look_up(record),
            PLAN => self.plan(record),
            RESTART => {
                let answer = model::restart(
                    model::plain_hmac,
                    &mut self.material,
                    &mut self.state,
                    record.number(4),
                );
                self.print_call("restart", answer);
            }
            operation => panic!("operation {operation}"),
        }
    }

    /// The memory of this number.
    pub fn memory(&mut self, number: u8) -> &mut Vec<u8> {
        match number {
            MEMORY_STORE => &mut self.material.store,
            MEMORY_LOGS => &mut self.material.log_memory,
            MEMORY_SEAL => &mut self.material.seal_memory,
            MEMORY_AUDITOR => &mut self.auditor_store,
            number => panic!("memory {number}"),
        }
    }

    fn set_bytes(&mut self, record: &Record) {
        let start = record.number(4) as usize;
        let bytes = &record.0[BYTES_START..][..usize::from(record.byte(2))];
        let memory = self.memory(record.byte(1));
        memory[start..start + bytes.len()].copy_from_slice(bytes);
    }

    fn set_length(&mut self, record: &Record) {
        let limit = match record.byte(1) {
            MEMORY_LOGS => LOG_MEMORY_LIMIT,
            MEMORY_SEAL => SEAL_MEMORY_LIMIT,
            _ => STORE_LIMIT,
        };
        let length = record.length(4, limit);
        self.memory(record.byte(1)).resize(length, 0);
    }

    fn audit(&mut self, record: &Record) {
        self.answer = self.audited(record, |audited| audited.answer());
        let Answer { refusal, number } = self.answer;
        self.print_reading(&format!("audit {refusal} {number}"));
    }

    fn look_up(&mut self, record: &Record) {
        let (phase, offset) = (record.byte(2), record.number(8));
        (self.answer, self.part) = self.audited(record, |audited| {
            (
                audited.item_at(phase, offset),
                audited.data_at(phase, offset),
            )
        });
        let Answer { refusal, number } = self.answer;
        let (start, length) = (self.part.start, self.part.len());
        let data = short_digest(&self.material.log_memory[self.part.clone()]);
        self.print_reading(&format!(
            "lookup {refusal} {number} {start} {length} {data}"
        ));
    }

    fn plan(&mut self, record: &Record) {
        self.answer = model::least_ratchet(&record.counts(), record.number(4));
        let Answer { refusal, number } = self.answer;
        self.print(&format!("plan {refusal} {number}"));
    }

    /// What is asked of the audited material.
    fn audited<T>(&self, record: &Record, ask: impl FnOnce(&Audited) -> T) -> T {
        let seal_length = record.length(4, SEAL_MEMORY_LIMIT);
        ask(&Audited::new(
            model::plain_hmac,
            &Presented {
                device_store: &self.material.store,
                auditor_store: &self.auditor_store,
                log_memory: &self.material.log_memory,
                log_lengths: &record.log_lengths(),
                seal_file: &self.material.seal_memory[..seal_length],
            },
        ))
    }

    fn open(&mut self, record: &Record) {
        let log_lengths = record.log_lengths();
        let (refusal, state) = model::open(&self.material, &log_lengths, record.long_number(8));
        self.state = state;
        self.print_call("open", Answer { refusal, number: 0 });
    }

    fn append(&mut self, record: &Record) {
        let data: Vec<u8> = (0..record.length(4, DATA_LIMIT))
            .map(|index| record.byte(8).wrapping_add(index as u8))
            .collect();
        let answer = model::append(
            model::plain_hmac,
            &mut self.material,
            &mut self.state,
            record.byte(1),
            &data,
        );
        self.print_call("append", answer);
    }

    fn print(&mut self, line: &str) {
        writeln!(self.output, "{line}").expect("a string takes all");
    }

    /// The refusal, the count and what stands after the call.
    fn print_call(&mut self, name: &str, answer: Answer) {
        self.answer = answer;
        let Answer { refusal, number } = answer;
        let state = short_digest(&state_bytes(&self.state));
        let [store, logs, seals] = self.material_digests();
        self.print(&format!(
            "{name} {refusal} {number} {state} {store} {logs} {seals}"
        ));
    }

    /// The call with its answer, and what was read.
    fn print_reading(&mut self, call: &str) {
        let [store, logs, seals] = self.material_digests();
        let auditor = short_digest(&self.auditor_store);
        self.print(&format!("{call} {store} {logs} {seals} {auditor}"));
    }

    fn material_digests(&self) -> [String; 3] {
        let Material {
            store,
            log_memory,
            seal_memory,
        } = &self.material;
        [store, log_memory, seal_memory].map(|bytes| short_digest(bytes))
    }
}

fn set_state(state: &mut State, record: &Record) {
    let number = record.number(4);
    match record.byte(1) {
        FIELD_CHUNK => state.position.chunk = number,
        FIELD_OFFSET => state.position.offset = number,
        FIELD_SEAL_LENGTH => state.seal_length = record.long_number(8),
        FIELD_LOG_LENGTH => state.log_lengths[usize::from(record.byte(2))] = number,
        FIELD_HELD_KEY => state.held_key.fill(record.byte(2)),
        field => panic!("field {field}"),
    }
}

/// The 80 bytes of a state: its fields in order, numbers little-endian.
fn state_bytes(state: &State) -> Vec<u8> {
    let Position { chunk, offset } = state.position;
    let mut bytes = [chunk.to_le_bytes(), offset.to_le_bytes()].concat();
    bytes.extend(state.held_key);
    bytes.extend(
        state
            .log_lengths
            .iter()
            .flat_map(|length| length.to_le_bytes()),
    );
    bytes.extend(state.seal_length.to_le_bytes());
    bytes
}

/// The first 8 bytes of the SHA-256 digest, in hexadecimal.
fn short_digest(bytes: &[u8]) -> String {
    let digest = plain::sha256(bytes);
    digest[..8]
        .iter()
        .map(|byte| format!("{byte:02x}"))
        .collect()
}
