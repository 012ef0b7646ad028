//! Refusals 2 to 5 of open, append and close.

use pahyndoi::model::Set;

use super::{EDGES, SETS, one_key};
use crate::record::MEMORY_STORE;
use crate::script::{CHUNK_LENGTH, OWN_SET_HEADER_LENGTH, Script, Shape, nearly_burned};

pub(super) fn groups(script: &mut Script) {
    store_lengths(script);
    kinds(script);
    edges(script);
    high_bytes(script);
    fields_of_both_kinds(script);
    log_memory(script);
    burned_after_unburned(script);
    log_lengths(script);
}

/// New material and one call of each kind. Each must give this refusal.
fn three_calls(script: &mut Script, refusal: u32, shape: Shape) {
    script.material(shape);
    script.expect_open(refusal, &vec![0; usize::from(shape.phases)], 0);
    script.expect_append((refusal, 0), 1, 1);
    let fillers = match refusal {
        0 => shape.ratchet - 1,
        _ => 0,
    };
    script.expect_close((refusal, fillers));
}

fn store_lengths(script: &mut Script) {
    let right = one_key(Set::COMMON);
    script.label("kind 6: 2: store lengths 58 and 60; 59 passes");
    for (store_length, refusal) in [(58, 2), (60, 2), (59, 0)] {
        let shape = Shape {
            store_length,
            ..right
        };
        three_calls(script, refusal, shape);
    }
    script.label("kind 6: 2: store lengths 0, 17, 18, 26, 27, 50 and 91");
    for store_length in [0, 17, 18, 26, 27, 50, 91] {
        let shape = Shape {
            store_length,
            ..right
        };
        three_calls(script, 2, shape);
    }
    script.label("kind 6: 2: a header of 27 bytes that counts no chunk");
    three_calls(script, 2, Shape::own(Set::COMMON, 1, 0, 1, 100));
}

fn kinds(script: &mut Script) {
    script.label("kind 6: 2: kinds 0, 1, 2, 5, 7 and 255 with a set");
    let right = one_key(Set::COMMON);
    for kind in [0, 1, 2, 5, 7, 255] {
        three_calls(script, 2, Shape { kind, ..right });
    }
    script.label("kind 6: 2: kinds 5, 6 and 7 without a set");
    let right = Shape::of(1, 1, 1, 100);
    for kind in [5, 6, 7] {
        three_calls(script, 2, Shape { kind, ..right });
    }
}

fn edges(script: &mut Script) {
    for (set, refusal) in EDGES {
        let text = match refusal {
            0 => "it passes",
            _ => "2",
        };
        script.label_set(set, text);
        three_calls(script, refusal, one_key(set));
    }
}

/// The first bytes of a number are not all of it.
fn high_bytes(script: &mut Script) {
    script.label("kind 6: 2: more than 16 bits of limit and capacity");
    script.material(one_key(Set::COMMON));
    for index in [21, 22, 25, 26] {
        script.set_store(index, 1);
        script.expect_open(2, &[0], 0);
        script.set_store(index, 0);
    }
    script.expect_open(0, &[0], 0);
}

fn fields_of_both_kinds(script: &mut Script) {
    script.label("kind 6: phases 0 and 9, chunks 1,025, N 0 and 257; the most");
    for (phases, chunk_count, ratchet, refusal) in [
        (0, 1, 1, 2),
        (9, 1, 1, 2),
        (1, 1025, 1, 2),
        (1, 1, 0, 2),
        (1, 1, 257, 2),
        (8, 1024, 256, 0),
    ] {
        let shape = Shape::own(SETS[0], phases, chunk_count, ratchet, 6409);
        three_calls(script, refusal, shape);
    }
}

fn log_memory(script: &mut Script) {
    for set in SETS {
        script.label_set(set, "3: log memory one short, one more; right");
        let right = Shape::own(set, 2, 1, 1, 100);
        for (log_memory, refusal) in [
            (right.log_memory - 1, 3),
            (right.log_memory + 1, 3),
            (right.log_memory, 0),
        ] {
            let shape = Shape {
                log_memory,
                ..right
            };
            three_calls(script, refusal, shape);
        }
    }
    script.label("kind 6: 3: 8,192 bytes for a phase where 512 are due");
    let log_memory = 8192;
    let shape = Shape {
        log_memory,
        ..one_key(SETS[0])
    };
    three_calls(script, 3, shape);
}

/// Two chunks of three are burned, then one of them has some byte again.
fn burned_after_unburned(script: &mut Script) {
    script.label("kind 6: 4: of chunk 0 only byte 0, only byte 31 left");
    script.material(Shape::own(SETS[0], 1, 3, 1, 100));
    script.expect_append((0, 0), 1, 1);
    script.expect_append((0, 1), 1, 1);
    for left in [(0, 1), (31, 128)] {
        open_with(script, 4, 0, &[left]);
    }
    script.label("kind 6: chunk 1 burned; not burned: byte 0, byte 31 left");
    open_with(script, 0, 0, &[]);
    assert_eq!(script.machine.state.position.chunk, 2);
    for left in [(0, 1), (31, 128)] {
        open_with(script, 0, 1, &[left]);
        assert_eq!(script.machine.state.position.chunk, 1);
    }
}

/// Opens the store with no more than these bytes of a chunk left.
fn open_with(script: &mut Script, refusal: u32, number: u32, left: &[(usize, u8)]) {
    let start = OWN_SET_HEADER_LENGTH + CHUNK_LENGTH * number;
    script.set_bytes(MEMORY_STORE, start, &nearly_burned(left));
    script.expect_open(refusal, &[2], 68);
}

fn log_lengths(script: &mut Script) {
    for set in SETS {
        script.label_set(set, "5: a length at the capacity passes");
        let capacity = set.log_capacity;
        script.material(Shape::own(set, 2, 1, 1, 100));
        for (lengths, refusal) in [
            ([capacity, capacity], 0),
            ([capacity + 1, 0], 5),
            ([0, capacity + 1], 5),
        ] {
            script.expect_open(refusal, &lengths, 0);
        }
    }
}
