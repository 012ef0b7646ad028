//! Section 12: every block and every answer is what the proved calls give.

use std::collections::BTreeMap;
use std::ops::Range;

use pahyndoi::{
    LONGEST_TAG, State, append_raw, audit_raw, close_raw, hmac_sha256, open_raw, restart_raw,
};

use crate::page;

const EXAMPLE: u32 = 12;
const ID: &[u8] = b"device 7";
const STANDBY_ID: &[u8] = b"device 8";
const DATA: &[u8] = b"07:00 164";
const HEADER_LENGTH: usize = 18;
const ID_PLACE: Range<usize> = 1..9;
const ENTRY_HEAD_LENGTH: usize = 18;
const ENTRY_LENGTH: usize = 50;
const FILLER_HEAD_LENGTH: usize = 9;
const RESTART_HEAD_LENGTH: usize = 13;
const RESTART_LENGTH: usize = 45;
const NUMBER_IN_RESTART: usize = 9;

/// Kind, offset 1 and N, behind the id.
const RATCHET_HEAD: [u8; 9] = [4, 1, 0, 0, 0, 2, 0, 0, 0];

const LOG_CAPACITY: usize = 8192;
const SMALL_LOG_CAPACITY: usize = 512;

/// One phase, two chunks and two keys from each.
fn store_with_two_chunks() -> Vec<u8> {
    let counts = [1, 2, 0, 0, 0, 2, 0, 0, 0];
    let chunks: Vec<u8> = (0x20..0x60).collect();
    [&[1], ID, &counts, &chunks].concat()
}

/// One phase, one chunk and two keys from it.
fn store_of(kind: u8, set: &[u8]) -> Vec<u8> {
    let counts = [1, 1, 0, 0, 0, 2, 0, 0, 0];
    let chunk: Vec<u8> = (0x20..0x40).collect();
    [&[kind], ID, &counts, set, &chunk].concat()
}

fn unused_store() -> Vec<u8> {
    store_of(1, &[])
}

/// Tags of 16 bytes, 64 bytes of data at most, logs of 512 bytes.
fn small_store() -> Vec<u8> {
    store_of(6, &[16, 64, 0, 0, 0, 0, 2, 0, 0])
}

/// The fields in order, numbers little-endian.
fn state_bytes(state: &State) -> Vec<u8> {
    let lengths: Vec<u8> = state.lengths.iter().flat_map(|n| n.to_le_bytes()).collect();
    let mut bytes = state.chunk.to_le_bytes().to_vec();
    bytes.extend(state.offset.to_le_bytes());
    bytes.extend(state.key);
    bytes.extend(lengths);
    bytes.extend(state.seal_length.to_le_bytes());
    bytes
}

fn tag(key: &[u8], message: &[u8]) -> Vec<u8> {
    let tag = hmac_sha256(key, message, LONGEST_TAG).expect("short enough");
    tag.to_vec()
}

/// What the page says, as the calls give it.
struct Run {
    unused: Vec<u8>,
    store: Vec<u8>,
    logs: Vec<u8>,
    seal: Vec<u8>,
    state: State,
    blocks: BTreeMap<String, Vec<u8>>,
    answers: Vec<(&'static str, u64)>,
}

impl Run {
    fn new() -> Run {
        let mut run = Run::on(unused_store(), LOG_CAPACITY);
        run.items();
        run
    }

    /// On the card of kind 6.
    fn small() -> Run {
        Run::on(small_store(), SMALL_LOG_CAPACITY)
    }

    fn on(unused: Vec<u8>, log_capacity: usize) -> Run {
        let mut run = Run::begun(unused, log_capacity);
        run.sealed();
        run.audited();
        run
    }

    /// With a cut behind the first entry.
    fn cut() -> Run {
        let mut run = Run::begun(store_with_two_chunks(), LOG_CAPACITY);
        run.open();
        run.append("append");
        run.cut_and_opened();
        run.restarted();
        run
    }

    fn begun(unused: Vec<u8>, log_capacity: usize) -> Run {
        Run {
            store: unused.clone(),
            unused,
            logs: vec![0; log_capacity],
            seal: vec![0; 160],
            state: State::default(),
            blocks: BTreeMap::new(),
            answers: Vec::new(),
        }
    }

    /// The seal file of a standby that has appended the same data.
    fn of_the_standby(&self) -> Vec<u8> {
        let mut unused = self.unused.clone();
        unused[ID_PLACE].copy_from_slice(STANDBY_ID);
        let mut standby = Run::begun(unused, self.logs.len());
        standby.open();
        standby.append("append");
        standby.seal_file()
    }

    fn block(&mut self, label: &str, bytes: Vec<u8>) {
        self.blocks.insert(label.to_string(), bytes);
    }

    fn answer(&mut self, call: &'static str, answer: u64) {
        self.answers.push((call, answer));
    }

    /// The calls of the device, and what each leaves.
    fn sealed(&mut self) {
        self.block("unused store", self.unused.clone());
        self.open();
        self.block("state after open", state_bytes(&self.state));
        self.append("append");
        self.block("log memory after append", self.logs.clone());
        self.block("store after append", self.store.clone());
        self.block("state after append", state_bytes(&self.state));
        self.block("key of item 1", self.state.key.to_vec());
        self.audit("audit before the close");
        self.close("close");
        self.block("state after close", state_bytes(&self.state));
        self.block("seal file", self.seal_file());
        assert!(self.seal[self.seal_file().len()..].iter().all(|b| *b == 0));
        self.append("append after the close");
    }

    fn open(&mut self) {
        let Run {
            state,
            store,
            logs,
            seal,
            ..
        } = self;
        let answer = open_raw(state, store, logs, &[0], seal, 0);
        self.answer("open", answer);
    }

    fn append(&mut self, call: &'static str) {
        let Run {
            state,
            store,
            logs,
            seal,
            ..
        } = self;
        let answer = append_raw(state, store, logs, seal, 1, DATA);
        self.answer(call, answer);
    }

    fn close(&mut self, call: &'static str) {
        let Run {
            state,
            store,
            logs,
            seal,
            ..
        } = self;
        let answer = close_raw(state, store, logs, seal);
        self.answer(call, answer);
    }

    /// The state is lost, but for the lengths, which the device has kept.
    fn cut_and_opened(&mut self) {
        let (lengths, seal_length) = (self.state.lengths, self.state.seal_length);
        self.state = State::default();
        let Run {
            state,
            store,
            logs,
            seal,
            ..
        } = self;
        let answer = open_raw(state, store, logs, &lengths[..1], seal, seal_length);
        self.answer("open after the cut", answer);
        self.block(
            "state after the open behind the cut",
            state_bytes(&self.state),
        );
    }

    /// What the device does then, refused and not.
    fn restarted(&mut self) {
        self.close("close in the restart's place");
        self.audit("audit before the restart");
        self.restart("restart with the number 2", 2);
        self.restart("restart with the number 1", 1);
        self.block("state after the restart", state_bytes(&self.state));
        self.close("close");
        self.restart("restart after the close", 1);
        let mut seal_file = self.seal_file();
        self.block("seal file with a cut", seal_file.clone());
        let restart = &seal_file[ENTRY_LENGTH..][..RESTART_LENGTH];
        let (head, tag) = restart.split_at(RESTART_HEAD_LENGTH);
        self.block("message of the restart item", [ID, head].concat());
        self.block("tag of the restart item", tag.to_vec());
        self.audit("audit");
        seal_file[ENTRY_LENGTH + NUMBER_IN_RESTART] = 2;
        self.audit_of("audit with the number 2 in item 1", &seal_file);
    }

    fn restart(&mut self, call: &'static str, number: u32) {
        let Run {
            state,
            store,
            logs,
            seal,
            ..
        } = self;
        let answer = restart_raw(state, store, logs, seal, number);
        self.answer(call, answer);
    }

    fn seal_file(&self) -> Vec<u8> {
        self.seal[..self.state.seal_length as usize].to_vec()
    }

    /// Messages, tags and keys of the two items.
    fn items(&mut self) {
        let seal_file = self.seal_file();
        let (entry, filler) = seal_file.split_at(ENTRY_LENGTH);
        let (entry_head, entry_tag) = entry.split_at(ENTRY_HEAD_LENGTH);
        let (filler_head, filler_tag) = filler.split_at(FILLER_HEAD_LENGTH);
        self.block(
            "key of item 0",
            self.unused.clone().split_off(HEADER_LENGTH),
        );
        self.block("message of item 0", [ID, entry_head, DATA].concat());
        self.block("tag of item 0", entry_tag.to_vec());
        let standby_item = self.of_the_standby();
        let (standby_head, standby_tag) = standby_item.split_at(ENTRY_HEAD_LENGTH);
        assert_eq!(standby_head, entry_head);
        self.block("tag of item 0 of the standby", standby_tag.to_vec());
        self.block("ratchet message", [ID, &RATCHET_HEAD].concat());
        self.block("message of item 1", [ID, filler_head].concat());
        self.block("tag of item 1", filler_tag.to_vec());
    }

    fn audited(&mut self) {
        let lengths = self.state.lengths[0].to_le_bytes();
        self.block("log lengths", lengths.to_vec());
        self.audit("audit");
        let byte = std::mem::replace(&mut self.logs[0], 0x31);
        self.audit("audit with the changed byte");
        self.logs[0] = byte;
        let item = self.of_the_standby();
        let rest = self.seal_file().split_off(item.len());
        self.audit_of("audit with the standby's item", &[item, rest].concat());
    }

    fn audit(&mut self, call: &'static str) {
        self.audit_of(call, &self.seal_file());
    }

    fn audit_of(&mut self, call: &'static str, seal_file: &[u8]) {
        let Run { store, logs, .. } = &self;
        let lengths = self.state.lengths[0].to_le_bytes();
        let answer = audit_raw(store, &self.unused, logs, &lengths, seal_file);
        self.answer(call, answer);
    }
}

/// What the page shows of the small card, by its labels there.
fn small_blocks() -> BTreeMap<String, Vec<u8>> {
    let blocks = Run::small().blocks;
    let shown = [
        ("unused store of kind 6", "unused store"),
        ("store of kind 6 after append", "store after append"),
        ("seal file of kind 6", "seal file"),
    ];
    shown
        .iter()
        .map(|(label, of_run)| (label.to_string(), blocks[*of_run].clone()))
        .collect()
}

#[test]
fn every_block_is_what_the_calls_give() {
    let mut given = Run::new().blocks;
    given.append(&mut small_blocks());
    given.append(&mut Run::cut().blocks);
    let page = page::blocks(page::section(EXAMPLE));
    let labels: Vec<&String> = page.keys().collect();
    assert_eq!(labels, given.keys().collect::<Vec<&String>>());
    for (label, bytes) in page {
        assert_eq!(bytes, given[&label], "{label}");
    }
}

/// The messages and keys of the page make its tags and its second key; with the
/// standby's id in front the first message makes the standby's tag.
#[test]
fn tags_and_keys_follow_from_messages() {
    let page = page::blocks(page::section(EXAMPLE));
    for item in [0, 1] {
        let key = &page[&format!("key of item {item}")];
        let message = &page[&format!("message of item {item}")];
        assert_eq!(page[&format!("tag of item {item}")], tag(key, message));
    }
    let first = &page["key of item 0"];
    let next = tag(first, &page["ratchet message"]);
    assert_eq!(page["key of item 1"], next);
    let behind_the_id = &page["message of item 0"][ID.len()..];
    let standby = tag(first, &[STANDBY_ID, behind_the_id].concat());
    assert_eq!(page["tag of item 0 of the standby"], standby);
    let second_chunk: Vec<u8> = (0x40..0x60).collect();
    let restart = tag(&second_chunk, &page["message of the restart item"]);
    assert_eq!(page["tag of the restart item"], restart);
}

/// The rows of the table with this heading.
fn answers_on_the_page(heading: &str) -> Vec<(&'static str, String)> {
    let rows = page::table(page::section(EXAMPLE), heading);
    rows.iter()
        .map(|row| (row[0], row[1].to_string()))
        .collect()
}

fn answers_of(run: &Run) -> Vec<(&'static str, String)> {
    run.answers
        .iter()
        .map(|(call, answer)| (*call, format!("`{answer:#018x}`")))
        .collect()
}

#[test]
fn every_answer_is_what_the_calls_give() {
    let page = answers_on_the_page("| call | answer | that is |");
    assert_eq!(page, answers_of(&Run::new()));
    let page = answers_on_the_page("| call, with a cut | answer | that is |");
    assert_eq!(page, answers_of(&Run::cut()));
}

/// The small card's states but for the seal length, and its answers, are those
/// of the other.
#[test]
fn small_card_differs_where_the_page_says() {
    let (common, small) = (Run::new(), Run::small());
    assert_eq!(small.answers, common.answers);
    let seal_length = size_of::<State>() - size_of::<u64>();
    for (label, length) in [("open", 0u64), ("append", 34), ("close", 59)] {
        let label = format!("state after {label}");
        let (state, other) = (&small.blocks[&label], &common.blocks[&label]);
        assert_eq!(state[..seal_length], other[..seal_length], "{label}");
        assert_eq!(state[seal_length..], length.to_le_bytes(), "{label}");
    }
}
