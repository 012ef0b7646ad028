//! The small cases of `docs/FORMAT.md`, 11, each refusal at its two sides, sets
//! of parameters and whole histories.

mod audit;
mod claim;
mod history;
mod lookup;
mod planning;
mod restarts;
mod rows;
mod sealing;
mod set;
mod standby;
mod tag;

use super::*;

/// The id of the stores.
const ID: [u8; 8] = [1, 2, 3, 4, 5, 6, 7, 8];

/// An unused store of kind 1.
fn store(phases: u8, chunk_count: u32, ratchet: u32) -> Vec<u8> {
    store_of(None, phases, chunk_count, ratchet)
}

/// An unused store, of kind 6 where it has a set of its own: chunks without a
/// zero byte.
fn store_of(own_set: Option<Set>, phases: u8, chunk_count: u32, ratchet: u32) -> Vec<u8> {
    let kind = if own_set.is_some() { 6 } else { 1 };
    let mut store = [&[kind], &ID[..], &[phases]].concat();
    store.extend(chunk_count.to_le_bytes());
    store.extend(ratchet.to_le_bytes());
    if let Some(set) = own_set {
        store.push(set.tag_length);
        store.extend(set.data_limit.to_le_bytes());
        store.extend(set.log_capacity.to_le_bytes());
    }
    for index in 0..chunk_count as usize * KEY_LENGTH {
        store.push((index * 7 % 255) as u8 + 1);
    }
    store
}

fn material(phases: u8, chunk_count: u32, ratchet: u32, seal_memory: usize) -> Material {
    Device::new(phases, chunk_count, ratchet, seal_memory).material
}

/// A device: what it lends and its sealing state.
#[derive(Clone, PartialEq, Eq)]
struct Device {
    material: Material,
    state: State,
}

impl Device {
    fn new(phases: u8, chunk_count: u32, ratchet: u32, seal_memory: usize) -> Device {
        Device::of(None, phases, chunk_count, ratchet, seal_memory)
    }

    /// A device whose store, of kind 6, has a set of its own, or none.
    fn of(
        own_set: Option<Set>,
        phases: u8,
        chunk_count: u32,
        ratchet: u32,
        seal_memory: usize,
    ) -> Device {
        let log_capacity = own_set.unwrap_or(Set::COMMON).log_capacity as usize;
        let material = Material {
            store: store_of(own_set, phases, chunk_count, ratchet),
            log_memory: vec![0xee; log_capacity * usize::from(phases)],
            seal_memory: vec![0xdd; seal_memory],
        };
        Device {
            material,
            state: State::default(),
        }
    }

    fn open(&mut self, log_lengths: &[u32], seal_length: u64) -> u32 {
        let (refusal, state) = open(&self.material, log_lengths, seal_length);
        self.state = state;
        refusal
    }

    /// The refusal and the count. Fails where a refused call changed a byte.
    fn append(&mut self, phase: u8, data: &[u8]) -> (u32, u32) {
        let before = self.clone();
        let answer = append(plain_hmac, &mut self.material, &mut self.state, phase, data);
        self.assert_unchanged_if_refused(answer, &before)
    }

    /// The refusal and the count. Fails where a refused call changed a byte.
    fn close(&mut self) -> (u32, u32) {
        let before = self.clone();
        let answer = close(plain_hmac, &mut self.material, &mut self.state);
        self.assert_unchanged_if_refused(answer, &before)
    }

    /// The refusal and the count. Fails where a refused call changed a byte.
    fn restart(&mut self, number: u32) -> (u32, u32) {
        let before = self.clone();
        let answer = restart(plain_hmac, &mut self.material, &mut self.state, number);
        self.assert_unchanged_if_refused(answer, &before)
    }

    /// The power is lost.
    fn cut(&mut self) {
        self.state = State::default();
    }

    fn assert_unchanged_if_refused(&self, answer: Answer, before: &Device) -> (u32, u32) {
        assert!(answer.refusal == 0 || (self == before && answer.number == 0));
        (answer.refusal, answer.number)
    }

    fn seal_file(&self) -> &[u8] {
        &self.material.seal_memory[..self.state.seal_length as usize]
    }
}
