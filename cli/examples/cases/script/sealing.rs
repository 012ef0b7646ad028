//! Sealing that works, up to the end of a memory or of the keys.

use super::Script;

pub(super) fn groups(script: &mut Script) {
    one_key(script);
    two_keys_a_chunk(script);
    three_keys_a_chunk(script);
    most_keys_a_chunk(script);
    largest_store(script);
    eight_phases(script);
    reopened_half_way(script);
    held_key(script);
}

fn one_key(script: &mut Script) {
    script.label("a store with one key: 11 at the second append");
    script.fresh(1, 1, 1, 1000);
    script.open(&[0], 0);
    script.close();
    script.append(1, 1, 7);
    script.append(1, 1, 8);
    script.close();
    script.open(&[1], 50);
    script.append(1, 1, 9);
}

fn two_keys_a_chunk(script: &mut Script) {
    script.label("N = 2: three chunks used up in a row, without an open");
    script.fresh(2, 3, 2, 400);
    for number in 0..6 {
        script.append(number % 2 + 1, 20 + u32::from(number), 250);
    }
    script.append(1, 1, 1);
    script.close();
    script.open(&[66, 69], 300);
}

fn three_keys_a_chunk(script: &mut Script) {
    script.label("N = 3: close at offsets 0, 1 and 2, and after an open");
    script.fresh(3, 3, 3, 1000);
    script.open(&[0, 0, 0], 0);
    script.close();
    script.append(2, 5, 1);
    script.append(3, 64, 2);
    script.close();
    script.close();
    script.append(2, 3, 3);
    script.close();
    script.open(&[0, 8, 64], 273);
    script.close();
    script.append(2, 512, 77);
    script.append(1, 100, 78);
    script.close();
    script.append(1, 1, 1);
}

fn most_keys_a_chunk(script: &mut Script) {
    script.label("N = 256: 255 fillers; the last key of a chunk");
    script.fresh(1, 2, 256, 16_384);
    script.append(1, 11, 40);
    script.close();
    script.append(1, 12, 41);
    script.close();
    script.append(1, 13, 42);
    script.set_offset(254);
    script.append(1, 14, 43);
    script.append(1, 15, 44);
}

fn largest_store(script: &mut Script) {
    script.label("1,024 chunks, N = 256: the last chunk and the last key");
    script.fresh(1, 1024, 256, 1000);
    script.set_chunk(1023);
    script.append(1, 1, 1);
    script.set_offset(255);
    script.append(1, 1, 2);
    script.append(1, 1, 3);
}

fn eight_phases(script: &mut Script) {
    script.label("eight phases: each one's place, the last byte of the memory");
    script.fresh(8, 3, 4, 2000);
    script.open(&[1, 2, 3, 4, 5, 6, 7, 8190], 9);
    for phase in 1..=8 {
        script.append(phase, 2, 16 * phase);
    }
    script.append(8, 1, 1);
    script.append(1, 1, 1);
    script.close();
}

/// Open alone does not ask whether the last burned chunk is half used.
fn reopened_half_way(script: &mut Script) {
    script.label("opened half way through a chunk: the next chunk");
    script.fresh(1, 3, 3, 500);
    script.append(1, 4, 1);
    script.open(&[4], 50);
    script.append(1, 4, 2);
    script.close();
}

fn held_key(script: &mut Script) {
    script.label("the held key: used above offset 0, not read at offset 0");
    script.fresh(1, 3, 3, 500);
    script.set_held_key(0x5a);
    script.close();
    script.append(1, 4, 1);
    script.set_held_key(0);
    script.append(1, 4, 2);
    script.set_held_key(0x5b);
    script.close();
}
