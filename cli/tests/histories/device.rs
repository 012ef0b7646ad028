//! A device: what it lends to each call, and its sealing state.

use std::ops::Range;

use pahyndoi::model::{Header, KEY_LENGTH, Material, Position, Set, State, is_burned};

use crate::random::Random;
use crate::sets::in_effect;

/// Where a store has its id.
pub const ID: Range<usize> = 1..9;

/// The bytes of the fields that both kinds of store have, and of the set behind
/// them in one of kind 6.
pub const FIELDS_LENGTH: usize = 18;
pub const SET_LENGTH: usize = 9;

#[derive(Clone, PartialEq, Eq)]
pub struct Device {
    pub material: Material,
    pub state: State,
}

/// The counts that a device is made by.
#[derive(Clone, Copy, Debug)]
pub struct Shape {
    /// What a store of kind 6 names; none for one of kind 1.
    pub own_set: Option<Set>,
    pub phases: usize,
    pub chunk_count: usize,
    pub ratchet: usize,
    pub seal_memory: usize,
}

impl Shape {
    /// Mostly few chunks and keys, so that both are used up; sometimes many.
    pub fn random(random: &mut Random, own_set: Option<Set>) -> Shape {
        let most_chunks = random.pick(&[1, 2, 4, 4, 9, 9, 40, 1024]);
        let most_keys = random.pick(&[1, 2, 3, 8, 8, 20, 256]);
        let items = random.pick(&[0, 10, 40, 100, 300, 300, 300]);
        let entry_length = in_effect(own_set).entry_length();
        Shape {
            own_set,
            phases: random.between(1, 8),
            chunk_count: at_most(random, most_chunks),
            ratchet: at_most(random, most_keys),
            seal_memory: random.up_to(items * entry_length + 60),
        }
    }

    /// The parameters that hold.
    pub fn set(&self) -> Set {
        in_effect(self.own_set)
    }

    /// The bytes before the chunks.
    pub fn header_length(&self) -> usize {
        match self.own_set {
            None => FIELDS_LENGTH,
            Some(_) => FIELDS_LENGTH + SET_LENGTH,
        }
    }

    fn header(&self, random: &mut Random) -> Header {
        Header {
            id: random.bytes(8).try_into().expect("8 bytes"),
            phases: self.phases as u8,
            chunk_count: self.chunk_count as u32,
            ratchet: self.ratchet as u32,
            own_set: self.own_set,
        }
    }

    /// With an unused store.
    pub fn material(&self, random: &mut Random) -> Material {
        let header = self.header(random);
        let mut store = header.to_bytes();
        store.extend(random.bytes(KEY_LENGTH * self.chunk_count));
        Material {
            store,
            log_memory: random.bytes(header.log_memory_length()),
            seal_memory: random.bytes(self.seal_memory),
        }
    }
}

/// Where the chunks begin in a store whose first byte is right.
pub fn header_length(store: &[u8]) -> usize {
    match store.first() {
        Some(6) => FIELDS_LENGTH + SET_LENGTH,
        _ => FIELDS_LENGTH,
    }
}

/// The bytes of this many chunks from the first on, of a whole store.
pub fn front(store: &mut [u8], chunks: usize) -> &mut [u8] {
    let start = header_length(store);
    &mut store[start..start + KEY_LENGTH * chunks]
}

/// From 1 to the most, often the most itself.
fn at_most(random: &mut Random, most: usize) -> usize {
    match random.once_in(3) {
        true => most,
        false => random.between(1, most),
    }
}

impl Device {
    /// An unused device, or one that has been used: some chunks burned, a
    /// state that fits, lengths at random and often near their ends.
    pub fn random(random: &mut Random, own_set: Option<Set>) -> Device {
        let shape = Shape::random(random, own_set);
        let mut device = Device {
            material: shape.material(random),
            state: State::default(),
        };
        if random.once_in(2) {
            device.use_up(random, &shape);
        }
        device
    }

    fn use_up(&mut self, random: &mut Random, shape: &Shape) {
        let chunk = match random.once_in(2) {
            true => shape.chunk_count - 1,
            false => random.up_to(shape.chunk_count),
        };
        let offset = match chunk < shape.chunk_count {
            true => random.index(shape.ratchet),
            false => 0,
        };
        let burned = chunk + usize::from(offset > 0);
        front(&mut self.material.store, burned).fill(0);
        self.state.position = Position {
            chunk: chunk as u32,
            offset: offset as u32,
        };
        if offset > 0 {
            self.state.held_key = random.bytes(32).try_into().expect("32 bytes");
        }
        let Set {
            data_limit,
            log_capacity,
            ..
        } = shape.set();
        for length in &mut self.state.log_lengths[..shape.phases] {
            *length = near_end(random, log_capacity as usize, data_limit as usize + 88) as u32;
        }
        self.state.seal_length = near_end(random, shape.seal_memory, 600) as u64;
    }

    pub fn header(&self) -> Option<Header> {
        Header::parse(&self.material.store)
    }

    /// The parameters of the store; those of kind 1 where it is malformed.
    pub fn set(&self) -> Set {
        self.header().map_or(Set::COMMON, |header| header.set())
    }

    /// How many fillers a close writes, where it is not refused.
    pub fn fillers_due(&self) -> usize {
        let ratchet = self.header().map_or(0, |header| header.ratchet);
        match self.state.position.offset {
            0 => 0,
            offset => ratchet.saturating_sub(offset) as usize,
        }
    }

    /// Whether a chunk of a whole store is burned.
    pub fn has_burned_chunk(&self) -> bool {
        let store = &self.material.store;
        let mut chunks = store[header_length(store)..].chunks(KEY_LENGTH);
        chunks.any(is_burned)
    }

    /// Whether neither refusal 2 nor 3 holds.
    pub fn is_whole(&self) -> bool {
        let logs = self.material.log_memory.len();
        self.header()
            .is_some_and(|header| header.log_memory_length() == logs)
    }
}

/// A number up to the end, mostly 0 or within reach of the end.
fn near_end(random: &mut Random, end: usize, reach: usize) -> usize {
    match random.up_to(6) {
        0..=3 => 0,
        4 => end.saturating_sub(random.up_to(reach)),
        5 => end.saturating_sub(random.up_to(3)),
        _ => random.up_to(end),
    }
}
