//! Refusals 2 to 5 and 12 to 14: the stores, the log memory and the lengths.

use super::{Case, chunk_bytes, four_items};
use crate::script::{Script, Shape, nearly_burned};

/// Where a header has its phases, its chunk count and N.
const PHASES: usize = 9;
const CHUNK_COUNT: usize = 10;
const RATCHET: usize = 14;

pub(super) fn groups(script: &mut Script) {
    largest_stores(script);
    let case = four_items(script);
    script.expect((0, 4), &case);
    device_store(script, &case);
    burned_after_unburned(script, &case);
    length_lists(script, &case);
    auditor_store(script, &case);
    headers_differ(script, &case);
    chunks_differ(script, &case);
    log_memory(script, &case);
    chunks_by_eights(script);
}

/// Unused stores whose numbers are right in one header and one too large in
/// the next.
fn largest_stores(script: &mut Script) {
    script.label("audit: 1,024 chunks, N 256 and eight phases pass; 2: one more");
    for (shape, refusal) in [
        (Shape::of(1, 1024, 1, 100), 0),
        (Shape::of(1, 1025, 1, 100), 2),
        (Shape::of(1, 1, 256, 100), 0),
        (Shape::of(1, 1, 257, 100), 2),
        (Shape::of(8, 1, 1, 100), 0),
        (Shape::of(9, 1, 1, 100), 2),
    ] {
        script.material(shape);
        script.keep();
        script.audit(&vec![0; usize::from(shape.phases)], 0);
        assert_eq!(script.machine.answer.refusal, refusal);
    }
}

/// Changes that make a store bad.
fn spoil(store: &mut Vec<u8>, way: usize) {
    match way {
        0 => store[0] = 0,
        1 => store[0] = 2,
        2 => store[PHASES] = 0,
        3 => store[PHASES] = 9,
        4 => store[CHUNK_COUNT] = 0,
        5 => store[CHUNK_COUNT] = 4,
        6 => store[RATCHET] = 0,
        7 => store[RATCHET + 1] = 1,
        8 => store.truncate(store.len() - 1),
        9 => store.push(1),
        10 => store.truncate(17),
        _ => store.clear(),
    }
}

const WAYS: usize = 12;

fn device_store(script: &mut Script, case: &Case) {
    script.label("2: kind, phases, counts, N, length of the device store");
    for way in 0..WAYS {
        script.expect((2, 0), &case.but(|case| spoil(&mut case.store, way)));
    }
}

fn burned_after_unburned(script: &mut Script, case: &Case) {
    script.label("4: one byte left of chunk 0, first or last; then of chunk 1");
    for (index, answer) in [(18, (4, 0)), (49, (4, 0)), (50, (14, 0)), (81, (14, 0))] {
        script.expect(answer, &case.but(|case| case.store[index] = 1));
    }
    script.label("4: chunks 0 and 2 burned; all of them");
    script.expect((22, 0), &case.but(|case| case.burn(2)));
    let gap = case.but(|case| {
        case.store = case.auditor_store.clone();
        case.burn(0);
        case.burn(2);
    });
    script.expect((4, 0), &gap);
}

fn length_lists(script: &mut Script, case: &Case) {
    script.label("5: 0, 1, 3 and 9 lengths for two phases");
    for count in [0, 1, 3, 9] {
        script.expect((5, 0), &case.but(|case| case.log_lengths.resize(count, 0)));
    }
    script.label("5: a length of 8,193 and the largest; 8,192 passes");
    for index in [0, 1] {
        for (length, refusal) in [(8192, 23), (8193, 5), (u32::MAX, 5)] {
            let changed = case.but(|case| case.log_lengths[index] = length);
            script.expect((refusal, 0), &changed);
        }
    }
}

fn auditor_store(script: &mut Script, case: &Case) {
    script.label("12: kind, phases, counts, N, length of the auditor's store");
    for way in 0..WAYS {
        let spoiled = case.but(|case| spoil(&mut case.auditor_store, way));
        script.expect((12, 0), &spoiled);
    }
    script.label("12: chunk 0, 1 or 2 burned in the auditor's store");
    for number in 0..3 {
        let burned = case.but(|case| chunk_bytes(&mut case.auditor_store, number).fill(0));
        script.expect((12, 0), &burned);
    }
    script.label("12: all of a chunk but byte 0, 7, 8 or 31 burned passes");
    for left in [(0, 1), (7, 128), (8, 1), (31, 1)] {
        let bytes = nearly_burned(&[left]);
        let both = case.but(|case| {
            for store in [&mut case.store, &mut case.auditor_store] {
                chunk_bytes(store, 2).copy_from_slice(&bytes);
            }
        });
        script.expect((0, 4), &both);
    }
}

fn headers_differ(script: &mut Script, case: &Case) {
    script.label("13: bytes 1, 7 and 8 (of the id), phases, N, chunk count");
    for (index, value) in [(1, 9), (7, 9), (8, 9), (PHASES, 3), (RATCHET, 3)] {
        let other = case.but(|case| case.auditor_store[index] = value);
        script.expect((13, 0), &other);
    }
    let longer = case.but(|case| {
        case.auditor_store[CHUNK_COUNT] = 4;
        case.auditor_store.extend([1; 32]);
    });
    script.expect((13, 0), &longer);
}

fn chunks_differ(script: &mut Script, case: &Case) {
    script.label("14: first and last byte of chunk 2; of burned chunk 1: 21");
    for index in [82, 113] {
        script.expect((14, 0), &case.but(|case| case.store[index] ^= 1));
        script.expect((14, 0), &case.but(|case| case.auditor_store[index] ^= 1));
    }
    for index in [50, 81] {
        let other_key = case.but(|case| case.auditor_store[index] ^= 1);
        script.expect((21, 2), &other_key);
    }
    script.label("14: nothing burned, chunk 0 differs");
    let unused = case.but(|case| {
        case.store = case.auditor_store.clone();
        case.store[18] ^= 1;
        case.seal_file.clear();
        case.log_lengths.fill(0);
    });
    script.expect((14, 0), &unused);
}

/// Shorter and shorter, so that no byte must be set again.
fn log_memory(script: &mut Script, case: &Case) {
    script.label("3: log memory of 16,385, 16,383, 8,192 and 0 for two phases");
    for length in [16_385, 16_383, 8192, 0] {
        script.expect((3, 0), &case.but(|case| case.log_memory.resize(length, 0)));
    }
}

/// Bytes at the edges of the parts of eight bytes that lie behind the burned
/// chunk, up to the store's last.
fn chunks_by_eights(script: &mut Script) {
    script.label("audit: four chunks, N = 1, one item");
    let case = Case::unused(script, 1, 4, 1).with_items(&[1], &[Some((1, 0, 1))]);
    script.expect((0, 1), &case);
    script.label("14: bytes 0, 7, 8, 31 of chunk 1, 0 of chunk 2, 31 of chunk 3");
    for (number, index, bit) in [
        (1, 0, 1),
        (1, 7, 128),
        (1, 8, 1),
        (1, 31, 128),
        (2, 0, 1),
        (3, 31, 128),
    ] {
        let other = case.but(|case| chunk_bytes(&mut case.store, number)[index] ^= bit);
        script.expect((14, 0), &other);
    }
    script.label("14: bytes 0 to 7 of chunk 1 exchanged with bytes 8 to 15");
    let exchanged = case.but(|case| chunk_bytes(&mut case.store, 1)[..16].rotate_left(8));
    script.expect((14, 0), &exchanged);
    script.label("14: nothing burned, the last byte of 1,024 chunks");
    let largest = Case::unused(script, 1, 1024, 1);
    let other = largest.but(|case| chunk_bytes(&mut case.store, 1023)[31] ^= 128);
    script.expect((14, 0), &other);
}
