//! Restarts behind a chunk that was cut: refusals 27, 10 and 11 at their two
//! sides, their order, and what comes after. A cut is an open half way through
//! a chunk. Each row says what the call answers.

use super::{CHUNK_LENGTH, HEADER_LENGTH, Script, nearly_burned};
use crate::record::{MEMORY_LOGS, MEMORY_SEAL, MEMORY_STORE};

pub(super) fn groups(script: &mut Script) {
    numbers(script);
    few_and_many_keys(script);
    offsets(script);
    burned_chunks(script);
    room(script);
    last_chunk(script);
    order(script);
    held_key(script);
    in_a_row(script);
    largest_store(script);
}

impl Script {
    /// The restart must give this refusal and this number.
    pub(super) fn expect_restart(&mut self, answer: (u32, u32), number: u32) {
        self.restart(number);
        self.assert_answer(answer);
    }
}

/// One entry of 4 bytes in chunk 0, and the power lost. N, then the bytes of
/// the seal memory.
fn cut(script: &mut Script, chunk_count: u32, ratchet: u32, seal_memory: u32) {
    script.fresh(1, chunk_count, ratchet, seal_memory);
    script.append(1, 4, 1);
    script.open(&[4], 50);
}

fn numbers(script: &mut Script) {
    script.label("restart, N = 3: 27 with 0, 3 and more; 1 passes, then 2");
    cut(script, 4, 3, 500);
    for number in [0, 3, 4, 0x101, 0x0100_0001, u32::MAX] {
        script.expect_restart((27, 0), number);
    }
    script.expect_restart((0, 3), 1);
    script.append(1, 5, 2);
    script.assert_answer((0, 4));
    script.open(&[9], 145);
    script.expect_restart((27, 0), 3);
    script.expect_restart((0, 6), 2);
    script.close();
    script.assert_answer((0, 2));
}

fn few_and_many_keys(script: &mut Script) {
    script.label("restart, N = 1: 27 with 0 and 1; N = 2: with 2, 1 passes");
    cut(script, 2, 1, 200);
    script.expect_restart((27, 0), 0);
    script.expect_restart((27, 0), 1);
    cut(script, 2, 2, 200);
    script.expect_restart((27, 0), 2);
    script.expect_restart((0, 2), 1);
    script.label("restart, N = 256: 27 with 256, 255 passes");
    cut(script, 2, 256, 200);
    script.expect_restart((27, 0), 256);
    script.expect_restart((0, 256), 255);
}

fn offsets(script: &mut Script) {
    script.label("restart: 27 at offsets 1 and 2, passes at offset 0");
    script.fresh(1, 2, 3, 300);
    for number in 0..3 {
        script.expect_restart((27, 0), 2);
        script.append(1, 4, 1);
        script.assert_answer((0, number));
    }
    script.expect_restart((0, 3), 2);
    script.expect_restart((27, 0), 2);
}

/// Chunk 2 loses its bytes, chunk 0 does not.
fn burned_chunks(script: &mut Script) {
    script.label("restart: 27 with no chunk burned, passes with the last one");
    script.fresh(1, 3, 2, 300);
    script.expect_restart((27, 0), 1);
    let last = HEADER_LENGTH + 2 * CHUNK_LENGTH;
    script.set_bytes(MEMORY_STORE, last, &nearly_burned(&[(31, 1)]));
    script.expect_restart((27, 0), 1);
    script.set_bytes(MEMORY_STORE, last, &nearly_burned(&[]));
    script.expect_restart((0, 0), 1);
}

fn room(script: &mut Script) {
    script.label("restart: 10 with room for 44 and 0 bytes, passes with 45");
    for (free, answer) in [(44, (10, 0)), (0, (10, 0)), (45, (0, 2))] {
        cut(script, 2, 2, 50 + free);
        script.expect_restart((27, 0), 2);
        script.expect_restart(answer, 1);
    }
}

/// The last chunk was cut.
fn last_chunk(script: &mut Script) {
    script.label("restart: 11 behind the last chunk; 10 before it, 27 first");
    for (seal_memory, refusal) in [(95, 11), (94, 10)] {
        cut(script, 1, 2, seal_memory);
        script.expect_restart((27, 0), 0);
        script.expect_restart((refusal, 0), 1);
    }
    script.close();
    script.assert_answer((0, 0));
}

/// The conditions are taken away one after another.
fn order(script: &mut Script) {
    script.label("restart: 2 before 3, then 6, 27, 10, 11");
    cut(script, 1, 2, 94);
    script.set_store(0, 0);
    script.set_length(MEMORY_LOGS, 8191);
    script.set_chunk(2);
    script.expect_restart((2, 0), 2);
    script.set_store(0, 1);
    script.expect_restart((3, 0), 2);
    script.set_length(MEMORY_LOGS, 8192);
    script.expect_restart((6, 0), 2);
    script.set_chunk(1);
    script.expect_restart((27, 0), 2);
    script.expect_restart((10, 0), 1);
    script.set_length(MEMORY_SEAL, 95);
    script.expect_restart((11, 0), 1);
    script.label("restart: 6 with an offset that is not below N, and others");
    cut(script, 3, 2, 200);
    script.set_offset(2);
    script.expect_restart((6, 0), 1);
    script.set_offset(0);
    script.set_chunk(0);
    script.expect_restart((6, 0), 1);
    script.set_chunk(1);
    script.set_log_length(1, 1);
    script.expect_restart((6, 0), 1);
    script.set_log_length(1, 0);
    script.set_seal_length(201);
    script.expect_restart((6, 0), 1);
}

fn held_key(script: &mut Script) {
    script.label("restart: the held key is not read");
    cut(script, 3, 3, 300);
    script.set_held_key(0x5a);
    script.expect_restart((0, 3), 1);
    script.append(1, 4, 2);
    script.assert_answer((0, 4));
}

/// Each restart is the one item of its chunk.
fn in_a_row(script: &mut Script) {
    script.label("restart: one behind the other, up to the last chunk");
    cut(script, 3, 2, 300);
    script.expect_restart((0, 2), 1);
    script.open(&[4], 95);
    script.expect_restart((0, 4), 1);
    script.open(&[4], 140);
    script.expect_restart((11, 0), 1);
}

fn largest_store(script: &mut Script) {
    script.label("restart: 1,024 chunks, N = 256: the last chunk");
    script.fresh(1, 1024, 256, 1000);
    script.append(1, 4, 1);
    script.open(&[4], 50);
    script.set_chunk(1023);
    script.expect_restart((0, 261_888), 255);
}
