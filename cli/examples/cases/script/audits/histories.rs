//! Whole histories as they were left, and with one thing changed since.

use super::{Case, chunk_bytes};
use crate::script::Script;

pub(super) fn groups(script: &mut Script) {
    accepted(script);
    let (case, other) = three_phases(script);
    logs_changed(script, &case);
    items_changed(script, &case);
    seal_file_cut(script, &case);
    seal_file_longer(script, &case);
    mixed(script, &case, &other);
    other_store(script, &case);
    empty(script);
}

/// Presents what the calls so far have left.
fn untouched(script: &mut Script, item_count: u32) -> Case {
    let case = Case::left(script);
    script.expect((0, item_count), &case);
    case
}

fn accepted(script: &mut Script) {
    script.label("audit: one item; two in two chunks; half a chunk closed");
    script.fresh(1, 2, 1, 100);
    script.keep();
    script.append(1, 1, 9);
    untouched(script, 1);
    script.append(1, 512, 10);
    untouched(script, 2);
    script.fresh(1, 1, 2, 100);
    script.keep();
    script.append(1, 3, 9);
    script.close();
    untouched(script, 2);
    script.label("audit: eight phases, all keys used; 255 fillers");
    script.fresh(8, 2, 4, 500);
    script.keep();
    for phase in 1..=8 {
        script.append(phase, 2 * u32::from(phase), 16 * phase);
    }
    untouched(script, 8);
    script.fresh(1, 1, 256, 10_505);
    script.keep();
    script.append(1, 11, 40);
    script.close();
    untouched(script, 256);
    script.label("audit: a log of 8,192 bytes in 16 items");
    script.fresh(1, 1, 16, 1000);
    script.keep();
    for first in 1..=16 {
        script.append(1, 512, first);
    }
    untouched(script, 16);
}

/// Nine items, of which 4, 5, 7 and 8 are fillers; three of five chunks are
/// burned. The other history's first entry is one byte shorter and its
/// second has other data.
fn three_phases(script: &mut Script) -> (Case, Case) {
    script.label("audit: three phases, N = 3, closed and opened again; another");
    let other = nine_items(script, 4, 33);
    (nine_items(script, 5, 32), other)
}

fn nine_items(script: &mut Script, first_length: u32, second_data: u8) -> Case {
    script.fresh(3, 5, 3, 500);
    script.keep();
    script.append(1, first_length, 1);
    script.append(3, 60, second_data);
    script.append(2, 7, 3);
    script.append(1, 3, 4);
    script.close();
    script.open(&[first_length + 3, 7, 60], 282);
    script.append(2, 20, 5);
    script.close();
    untouched(script, 9)
}

fn logs_changed(script: &mut Script, case: &Case) {
    script.label("audit: a log byte changed, in and beyond a log's length");
    let last_of_phase_2 = 8192 + 26;
    let last_of_phase_3 = 2 * 8192 + 59;
    for (index, answer) in [
        (0, (21, 0)),
        (5, (21, 3)),
        (8, (0, 9)),
        (last_of_phase_2, (21, 6)),
        (last_of_phase_3, (21, 1)),
        (last_of_phase_3 + 1, (0, 9)),
    ] {
        script.expect(answer, &case.but(|case| case.log_memory[index] ^= 1));
    }
}

fn items_changed(script: &mut Script, case: &Case) {
    script.label("audit: an item dropped: 0, 4, 6, 8");
    for (number, answer) in [(0, (17, 0)), (4, (17, 4)), (6, (17, 6)), (8, (22, 0))] {
        let dropped = case.but_items(|items| {
            items.remove(number);
        });
        script.expect(answer, &dropped);
    }
    script.label("audit: items swapped: 0 and 1, 4 and 5, 5 and 8");
    for (one, other) in [(0, 1), (4, 5), (5, 8)] {
        let swapped = case.but_items(|items| items.swap(one, other));
        script.expect((17, one as u32), &swapped);
    }
    script.label("audit: an item twice");
    let twice = case.but_items(|items| items[1] = items[0].clone());
    script.expect((17, 1), &twice);
}

/// Item 6 begins at byte 282, item 8 at 373; the file has 414 bytes.
fn seal_file_cut(script: &mut Script, case: &Case) {
    script.label("audit: cut inside the last item, between items, to nothing");
    for (length, answer) in [
        (413, (15, 8)),
        (374, (15, 8)),
        (373, (22, 0)),
        (331, (15, 6)),
        (283, (15, 6)),
        (282, (22, 0)),
        (0, (22, 0)),
    ] {
        script.expect(answer, &case.but(|case| case.seal_file.truncate(length)));
    }
}

fn seal_file_longer(script: &mut Script, case: &Case) {
    script.label("audit: trailing bytes: one; the last item again");
    for byte in [0, 2, 3] {
        script.expect((15, 9), &case.but(|case| case.seal_file.push(byte)));
    }
    let again = case.but_items(|items| items.extend(items.last().cloned()));
    script.expect((16, 9), &again);
}

fn mixed(script: &mut Script, case: &Case, other: &Case) {
    script.label("audit: items of two histories: 1, 0, 3, 4");
    let others = other.items();
    for (number, answer) in [(1, (21, 1)), (0, (20, 3)), (3, (19, 3)), (4, (0, 9))] {
        let mixed = case.but_items(|items| items[number] = others[number].clone());
        script.expect(answer, &mixed);
    }
    script.label("audit: the logs of one, the seal file of the other");
    script.expect(
        (21, 1),
        &case.but(|case| case.seal_file = other.seal_file.clone()),
    );
}

fn other_store(script: &mut Script, case: &Case) {
    script.label("audit: the store rolled back: by one chunk, by all");
    for (first, answer) in [(2, (16, 6)), (0, (16, 0))] {
        let rolled_back = case.but(|case| {
            for number in first..3 {
                let unused = chunk_bytes(&mut case.auditor_store, number).to_vec();
                chunk_bytes(&mut case.store, number).copy_from_slice(&unused);
            }
        });
        script.expect(answer, &rolled_back);
        let cut = rolled_back.but_items(|items| items.truncate(3 * first as usize));
        script.expect((23, 0), &cut);
    }
    script.label("audit: one chunk more burned; the last one alone");
    script.expect((22, 0), &case.but(|case| case.burn(3)));
    script.expect((4, 0), &case.but(|case| case.burn(4)));
}

fn empty(script: &mut Script) {
    script.label("audit: nothing written: accepted; with a length above 0: 23");
    for phases in [1, 8] {
        let case = Case::unused(script, phases, 2, 3);
        script.expect((0, 0), &case);
        let last = usize::from(phases) - 1;
        for index in [0, last] {
            script.expect((23, 0), &case.but(|case| case.log_lengths[index] = 1));
        }
    }
}
