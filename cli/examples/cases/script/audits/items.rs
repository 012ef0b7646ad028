//! Refusals 15 to 18 and 21: one item after another.

use pahyndoi::model::Position;

use super::{Case, Wanted, four_items};
use crate::script::Script;

pub(super) fn groups(script: &mut Script) {
    let case = four_items(script);
    kinds(script, &case);
    ends_inside(script, &case);
    surplus(script, &case);
    positions(script, &case);
    phases(script);
    data_lengths(script);
    areas(script);
    tags(script);
    other_messages(script);
}

fn kinds(script: &mut Script, case: &Case) {
    script.label("15: kinds 0, 1, 4 and 255 of the first and the last item");
    for (index, number) in [(0, 0), (150, 3)] {
        for kind in [0, 1, 4, 255] {
            let other = case.but(|case| case.seal_file[index] = kind);
            script.expect((15, number), &other);
        }
    }
    script.label("15: an entry's kind on the filler: the bytes end inside it");
    script.expect((15, 3), &case.but(|case| case.seal_file[150] = 2));
}

fn ends_inside(script: &mut Script, case: &Case) {
    script.label("15: an entry of 1, 18 and 49 bytes, a filler of 1, 9 and 40");
    for length in [51, 68, 99, 151, 159, 190] {
        let cut = case.but(|case| case.seal_file.truncate(length));
        script.expect((15, length as u32 / 50), &cut);
    }
}

fn surplus(script: &mut Script, case: &Case) {
    script.label("16: a fifth item of four, rightly sealed; none due");
    let next = case.position(4);
    script.expect((16, 4), &case.but(|case| case.push(next, None)));
    script.expect((16, 4), &case.but(|case| case.push(next, Some((1, 7, 1)))));
    let unburned = case.but(|case| case.store = case.auditor_store.clone());
    script.expect((16, 0), &unburned);
}

/// The item of this number names another position, with its own key.
fn misplaced(case: &Case, number: usize, chunk: u32, offset: u32, item: Wanted) -> Case {
    let named = Position { chunk, offset };
    let item = case.item(named, case.position(number), item);
    case.but_items(|items| items[number] = item.to_bytes())
}

fn positions(script: &mut Script, case: &Case) {
    script.label("17: item 1, of chunk 0 and offset 1, names others");
    let high = 1 << 24;
    for (chunk, offset) in [(1, 1), (0, 0), (0, 2), (1, 0), (high, 1), (0, high + 1)] {
        let other = misplaced(case, 1, chunk, offset, Some((2, 0, 3)));
        script.expect((17, 1), &other);
    }
    script.label("17: item 2, of chunk 1 and offset 0, names others");
    for (chunk, offset) in [(0, 0), (2, 0), (1, 1), (0, 1), (0, 2), (u32::MAX, 2)] {
        let other = misplaced(case, 2, chunk, offset, Some((1, 5, 2)));
        script.expect((17, 2), &other);
    }
    script.label("17: filler 3, of chunk 1 and offset 1, names others");
    for (chunk, offset) in [(0, 1), (2, 1), (1, 0), (1, 2), (0, 3), (high + 1, 1)] {
        script.expect((17, 3), &misplaced(case, 3, chunk, offset, None));
    }
}

fn phases(script: &mut Script) {
    script.label("18: phases 0, 3 and 255 of two; 1 and 2 pass");
    let unused = Case::unused(script, 2, 1, 1);
    for (phase, refusal) in [(0, 18), (3, 18), (255, 18), (1, 0), (2, 0)] {
        let lengths = [u32::from(phase != 2), u32::from(phase == 2)];
        let case = unused.with_items(&lengths, &[Some((phase, 0, 1))]);
        script.expect((refusal, u32::from(refusal == 0)), &case);
    }
    script.label("18: phases 0, 9 and 255 of eight; 8 passes");
    let unused = Case::unused(script, 8, 1, 1);
    let lengths = [0, 0, 0, 0, 0, 0, 0, 1];
    for (phase, refusal) in [(0, 18), (9, 18), (255, 18), (8, 0)] {
        let case = unused.with_items(&lengths, &[Some((phase, 0, 1))]);
        script.expect((refusal, u32::from(refusal == 0)), &case);
    }
}

fn data_lengths(script: &mut Script) {
    script.label("18: data lengths 0, 513 and more; 1 and 512 pass");
    let unused = Case::unused(script, 1, 1, 1);
    for length in [1, 512] {
        let case = unused.with_items(&[length], &[Some((1, 0, length))]);
        script.expect((0, 1), &case);
    }
    for length in [0, 513, 0x0001_0001, 0x0100_0200, u32::MAX] {
        let case = unused.with_items(&[8192], &[Some((1, 0, length))]);
        script.expect((18, 0), &case);
    }
}

fn areas(script: &mut Script) {
    script.label("18: the area ends at its phase's length, then one beyond");
    let unused = Case::unused(script, 2, 1, 1);
    for (lengths, area, answer) in [
        ([8, 0], (1, 0, 8), (0, 1)),
        ([8, 3], (1, 0, 8), (23, 0)),
        ([8, 3], (1, 0, 9), (18, 0)),
        ([8, 3], (1, 1, 7), (20, 0)),
        ([8, 3], (1, 1, 8), (18, 0)),
        ([8, 3], (1, 8, 1), (18, 0)),
        ([0, 3], (2, 0, 3), (0, 1)),
        ([8, 3], (2, 0, 4), (18, 0)),
        ([8, 3], (2, 2, 1), (20, 0)),
        ([8, 3], (2, 3, 1), (18, 0)),
        ([8192, 8192], (1, 8191, 1), (20, 0)),
        ([8192, 8192], (1, 8191, 2), (18, 0)),
        ([8192, 8192], (1, 8192, 1), (18, 0)),
        ([8192, 8192], (2, 7680, 512), (20, 0)),
        ([8192, 8192], (2, 7681, 512), (18, 0)),
    ] {
        script.expect(answer, &unused.with_items(&lengths, &[Some(area)]));
    }
    script.label("18: offsets whose sum with the length wraps in 32 bits");
    for (offset, length) in [
        (u32::MAX, 1),
        (u32::MAX, 2),
        (0xffff_fe00, 512),
        (1 << 31, 1),
    ] {
        let case = unused.with_items(&[8192, 8192], &[Some((1, offset, length))]);
        script.expect((18, 0), &case);
    }
}

fn tags(script: &mut Script) {
    let case = four_items(script);
    script.label("21: first and last byte of tags 0, 2 and 3; bytes 7, 8 of tag 0");
    for (index, number) in [
        (18, 0),
        (25, 0),
        (26, 0),
        (49, 0),
        (118, 2),
        (149, 2),
        (159, 3),
        (190, 3),
    ] {
        let other = case.but(|case| case.seal_file[index] ^= 1);
        script.expect((21, number), &other);
    }
    script.label("21: tags of zeros: entry 1, filler 3");
    for (tag, number) in [(68..100, 1), (159..191, 3)] {
        let zeros = case.but(|case| case.seal_file[tag].fill(0));
        script.expect((21, number), &zeros);
    }
    script.label("21: sealed with the key before, or with another chunk's");
    for (number, item) in [(1, Some((2, 0, 3))), (2, Some((1, 5, 2))), (3, None)] {
        let keys = [number - 1, number + 1, (number + 2) % 4];
        for key in keys {
            let (named, key) = (case.position(number), case.position(key));
            let sealed = case.item(named, key, item).to_bytes();
            let other = case.but_items(|items| items[number] = sealed);
            script.expect((21, number as u32), &other);
        }
    }
}

/// The tag is that of another message under the right key.
fn other_messages(script: &mut Script) {
    let case = four_items(script);
    script.label("21: tag of another phase, offset, length; of changed data");
    let position = case.position(2);
    for tagged in [(2, 5, 2), (1, 4, 2), (1, 5, 1), (1, 5, 3)] {
        let tag = case.item(position, position, Some(tagged)).tag;
        let other = case.but(|case| case.seal_file[118..150].copy_from_slice(&tag));
        script.expect((21, 2), &other);
    }
    for (index, answer) in [
        (4, (21, 0)),
        (5, (21, 2)),
        (6, (21, 2)),
        (7, (0, 4)),
        (8194, (21, 1)),
    ] {
        script.expect(answer, &case.but(|case| case.log_memory[index] ^= 128));
    }
}
