//! Refusals 2 to 6 at opening, and 2 and 3 of append and close.

use super::{CHUNK_LENGTH, HEADER_LENGTH, Script, Shape, nearly_burned};
use crate::record::MEMORY_STORE;

pub(super) fn groups(script: &mut Script) {
    largest_header(script);
    header_fields(script);
    store_lengths(script);
    log_memory(script);
    burned_after_unburned(script);
    what_is_burned(script);
    zeros_by_eights(script);
    length_lists(script);
    seal_length_at_opening(script);
}

/// New material and one call of each kind.
fn three_calls(script: &mut Script, shape: Shape) {
    script.material(shape);
    script.open(&vec![0; usize::from(shape.phases)], 0);
    script.append(1, 1, 1);
    script.close();
}

fn largest_header(script: &mut Script) {
    script.label("the largest numbers in the header pass");
    three_calls(script, Shape::of(8, 1024, 256, 10_505));
}

fn header_fields(script: &mut Script) {
    script.label("2: kinds 0 and 2, phases 0 and 9");
    let right = Shape::of(1, 1, 1, 100);
    three_calls(script, Shape { kind: 0, ..right });
    three_calls(script, Shape { kind: 2, ..right });
    three_calls(script, Shape::of(0, 1, 1, 100));
    three_calls(script, Shape::of(9, 1, 1, 100));
    script.label("2: chunk counts 0 and 1,025, N 0 and 257");
    three_calls(script, Shape::of(1, 0, 1, 100));
    three_calls(script, Shape::of(1, 1025, 1, 100));
    three_calls(script, Shape::of(1, 1, 0, 100));
    three_calls(script, Shape::of(1, 1, 257, 100));
    script.label("2: more than 16 bits; a length that wraps to 50");
    script.material(Shape::of(1, 1, 0x0001_0001, 100));
    script.open(&[0], 0);
    for chunk_count in [0x0001_0001, 0x0800_0001] {
        script.material(Shape {
            chunk_count,
            ..right
        });
        script.open(&[0], 0);
    }
}

fn store_lengths(script: &mut Script) {
    script.label("2: store lengths 0, 17, 49, 51");
    let right = Shape::of(1, 1, 1, 100);
    for store_length in [0, 17, 49, 51] {
        let shape = Shape {
            store_length,
            ..right
        };
        three_calls(script, shape);
    }
}

fn log_memory(script: &mut Script) {
    script.label("3: log memory 8,191 and 8,193; 8,192 for two phases");
    for (phases, log_memory) in [(1, 8191), (1, 8193), (2, 8192)] {
        let right = Shape::of(phases, 1, 1, 100);
        three_calls(
            script,
            Shape {
                log_memory,
                ..right
            },
        );
    }
}

fn burned_after_unburned(script: &mut Script) {
    script.label("4: of three chunks burned: 1, 2, 3; then 2 3, 1 3, 3");
    script.fresh(1, 3, 1, 500);
    for length in 1..=3 {
        script.append(1, 1, 9);
        script.open(&[length], u64::from(length) * 50);
    }
    script.set_store(18, 1);
    script.open(&[3], 150);
    script.set_store(18, 0);
    script.set_store(81, 1);
    script.open(&[3], 150);
    script.set_store(49, 1);
    script.open(&[3], 150);
    script.append(1, 1, 9);
}

fn what_is_burned(script: &mut Script) {
    script.label("not burned: only the first, only the last byte left");
    script.fresh(1, 2, 1, 500);
    script.append(1, 1, 9);
    script.set_store(18, 1);
    script.open(&[0], 0);
    script.set_store(18, 0);
    script.set_store(49, 128);
    script.open(&[0], 0);
    script.append(1, 1, 10);
    script.open(&[0], 0);
}

/// Bytes at the edges of a chunk's parts of eight bytes. Two chunks of three
/// are burned before one of them is changed.
fn zeros_by_eights(script: &mut Script) {
    script.label("4: chunk 1 burned, of chunk 0 only byte 7, 8 or 31 left");
    script.fresh(1, 3, 1, 500);
    script.append(1, 1, 9);
    script.append(1, 1, 10);
    for left in [(7, 128), (8, 1), (31, 128)] {
        open_with(script, 0, &[left]);
        assert_eq!(script.machine.answer.refusal, 4);
    }
    script.label("chunk 1 burned; not burned: byte 7; 8; 31; 7 and 15 left");
    open_with(script, 0, &[]);
    assert_eq!(script.machine.state.position.chunk, 2);
    for left in [
        &[(7, 128)][..],
        &[(8, 1)],
        &[(31, 128)],
        &[(7, 128), (15, 128)],
    ] {
        open_with(script, 1, left);
        assert_eq!(script.machine.state.position.chunk, 1);
    }
}

/// Opens the store with no more than these bytes of a chunk left.
fn open_with(script: &mut Script, number: u32, left: &[(usize, u8)]) {
    let start = HEADER_LENGTH + CHUNK_LENGTH * number;
    script.set_bytes(MEMORY_STORE, start, &nearly_burned(left));
    script.open(&[2], 100);
}

fn length_lists(script: &mut Script) {
    script.label("5: 0, 1 and 2 lengths for one phase, 7, 8 and 9 for eight");
    script.fresh(1, 1, 1, 100);
    for count in 0..=2 {
        script.open(&vec![0; count], 0);
    }
    script.fresh(8, 1, 1, 100);
    for count in 7..=9 {
        script.open(&vec![3; count], 0);
    }
    script.label("5: 8,192 passes, 8,193 and the largest number do not");
    let full = [8192; 8];
    script.open(&full, 0);
    for (index, length) in [(0, 8193), (7, 8193), (3, u32::MAX)] {
        let mut lengths = full;
        lengths[index] = length;
        script.open(&lengths, 0);
    }
}

fn seal_length_at_opening(script: &mut Script) {
    script.label("6 at opening: seal length 100 of 100, more; 0 and 1 of 0");
    script.fresh(1, 1, 1, 100);
    for seal_length in [100, 101, 1 << 32] {
        script.open(&[1], seal_length);
    }
    script.fresh(1, 1, 1, 0);
    script.open(&[1], 1);
    script.open(&[1], 0);
    script.append(1, 1, 1);
    script.close();
}
