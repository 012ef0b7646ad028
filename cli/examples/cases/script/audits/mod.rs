//! Audits of what sealing leaves and of what a forger who knows every key
//! presents. Each case says what the audit answers.

mod endings;
mod histories;
mod items;
mod order;
mod presented;
pub(super) mod restarts;
mod rising;
mod standby;

use pahyndoi::model::{Head, Header, Item, Position, chunk, key_at, plain_hmac, position};

use super::{CHUNK_LENGTH, Script, Shape, header_length};
use crate::record::*;

pub(super) fn groups(script: &mut Script) {
    histories::groups(script);
    rising::groups(script);
    presented::groups(script);
    items::groups(script);
    endings::groups(script);
    order::groups(script);
    standby::groups(script);
    restarts::groups(script);
}

/// An entry by phase, offset and data length, or a filler.
type Wanted = Option<(u8, u32, u32)>;

/// What an audit reads.
#[derive(Clone)]
pub(super) struct Case {
    pub(super) store: Vec<u8>,
    pub(super) auditor_store: Vec<u8>,
    pub(super) log_memory: Vec<u8>,
    pub(super) log_lengths: Vec<u32>,
    pub(super) seal_file: Vec<u8>,
}

impl Case {
    /// What the calls so far have left, with the store that was kept.
    pub(super) fn left(script: &Script) -> Case {
        let machine = &script.machine;
        let phases = usize::from(machine.material.store[9]);
        let seal_length = machine.state.seal_length as usize;
        Case {
            store: machine.material.store.clone(),
            auditor_store: machine.auditor_store.clone(),
            log_memory: machine.material.log_memory.clone(),
            log_lengths: machine.state.log_lengths[..phases].to_vec(),
            seal_file: machine.material.seal_memory[..seal_length].to_vec(),
        }
    }

    /// New material, kept, with no chunk burned and no item. The first bytes
    /// of each log differ.
    fn unused(script: &mut Script, phases: u8, chunk_count: u32, ratchet: u32) -> Case {
        Case::unused_of(script, Shape::of(phases, chunk_count, ratchet, 2000))
    }

    /// The same of any shape.
    pub(super) fn unused_of(script: &mut Script, shape: Shape) -> Case {
        script.material(shape);
        script.keep();
        let mut case = Case::left(script);
        let capacity = case.header().set().log_capacity as usize;
        for (index, log) in case.log_memory.chunks_mut(capacity).enumerate() {
            for (byte, value) in log.iter_mut().take(BYTES_LIMIT).zip(100 * index..) {
                *byte = value as u8;
            }
        }
        case
    }

    /// The case with these items, sealed by the first keys, and with the
    /// chunks that they begin burned.
    pub(super) fn with_items(&self, log_lengths: &[u32], items: &[Wanted]) -> Case {
        let mut case = self.clone();
        case.log_lengths = log_lengths.to_vec();
        for (number, item) in items.iter().enumerate() {
            case.push(case.position(number), *item);
        }
        let begun = items.len().div_ceil(case.ratchet() as usize);
        for number in 0..begun as u32 {
            case.burn(number);
        }
        case
    }

    /// That of the auditor's store.
    pub(super) fn header(&self) -> Header {
        Header::parse(&self.auditor_store).expect("a store")
    }

    /// N, which the auditor's store has.
    fn ratchet(&self) -> u32 {
        self.header().ratchet
    }

    fn position(&self, number: usize) -> Position {
        position(number as u32, self.ratchet())
    }

    /// Adds an item with a right tag.
    fn push(&mut self, position: Position, item: Wanted) {
        let item = self.item(position, position, item);
        self.seal_file.extend(item.to_bytes());
    }

    /// An item that names a position, sealed with the key of a position.
    fn item(&self, named: Position, key: Position, item: Wanted) -> Item {
        let header = self.header();
        let key = key_at(
            plain_hmac,
            chunk(&self.auditor_store, key.chunk),
            key.offset,
            &header,
        );
        match item {
            None => Head::Filler { position: named }.seal(&header, plain_hmac, &key, &[]),
            Some((phase, offset, length)) => {
                let head = Head::Entry {
                    phase,
                    offset,
                    length,
                    position: named,
                };
                head.seal(&header, plain_hmac, &key, self.data(phase, offset, length))
            }
        }
    }

    /// The data in an area; none where it leaves the memory.
    fn data(&self, phase: u8, offset: u32, length: u32) -> &[u8] {
        let start = self.header().log_start(phase.max(1)) + offset as usize;
        let area = start..start + length as usize;
        self.log_memory.get(area).unwrap_or_default()
    }

    /// Burns a chunk of the device store.
    fn burn(&mut self, number: u32) {
        chunk_bytes(&mut self.store, number).fill(0);
    }

    /// The seal file taken apart into its items.
    fn items(&self) -> Vec<Vec<u8>> {
        let set = self.header().set();
        let mut items = Vec::new();
        let mut rest = &self.seal_file[..];
        while !rest.is_empty() {
            let length = Item::parse(set, rest).expect("an item").byte_count();
            let (item, behind) = rest.split_at(length);
            items.push(item.to_vec());
            rest = behind;
        }
        items
    }

    /// The case with one change.
    pub(super) fn but(&self, change: impl FnOnce(&mut Case)) -> Case {
        let mut case = self.clone();
        change(&mut case);
        case
    }

    /// The case with its items changed.
    fn but_items(&self, change: impl FnOnce(&mut Vec<Vec<u8>>)) -> Case {
        let mut items = self.items();
        change(&mut items);
        self.but(|case| case.seal_file = items.concat())
    }
}

/// Two phases, three chunks, N = 2: three entries and a filler, at bytes 0, 50,
/// 100 and 150; two chunks burned.
fn four_items(script: &mut Script) -> Case {
    script.label("audit: two phases, three chunks, N = 2, four items");
    let items = [Some((1, 0, 5)), Some((2, 0, 3)), Some((1, 5, 2)), None];
    Case::unused(script, 2, 3, 2).with_items(&[7, 3], &items)
}

/// A store's bytes of one chunk.
pub(super) fn chunk_bytes(store: &mut [u8], number: u32) -> &mut [u8] {
    let start = header_length(store) + (CHUNK_LENGTH * number) as usize;
    &mut store[start..][..CHUNK_LENGTH as usize]
}

impl Script {
    /// Presents the case. The audit must give this refusal and this number.
    pub(super) fn expect(&mut self, answer: (u32, u32), case: &Case) {
        self.present(case);
        self.audit(&case.log_lengths, case.seal_file.len() as u32);
        self.assert_answer(answer);
    }

    /// Brings store, auditor's store and memories to what the case has.
    pub(super) fn present(&mut self, case: &Case) {
        self.bring(MEMORY_STORE, &case.store);
        self.bring(MEMORY_AUDITOR, &case.auditor_store);
        self.bring(MEMORY_LOGS, &case.log_memory);
        let mut seal_memory = self.machine.material.seal_memory.clone();
        seal_memory[..case.seal_file.len()].copy_from_slice(&case.seal_file);
        self.bring(MEMORY_SEAL, &seal_memory);
    }

    /// Brings a memory to these bytes: its length, then the bytes that differ.
    fn bring(&mut self, memory: u8, wanted: &[u8]) {
        if self.machine.memory(memory).len() != wanted.len() {
            self.set_length(memory, wanted.len() as u32);
        }
        let present = self.machine.memory(memory).clone();
        let differs = |index: &usize| present[*index] != wanted[*index];
        let mut start = 0;
        while let Some(first) = (start..wanted.len()).find(differs) {
            let end = wanted.len().min(first + BYTES_LIMIT);
            let last = (first..end).rfind(differs).unwrap_or(first);
            self.set_bytes(memory, first as u32, &wanted[first..=last]);
            start = end;
        }
    }
}
