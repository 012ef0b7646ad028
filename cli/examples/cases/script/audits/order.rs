//! Two conditions at once: the earlier number is given.

use super::{Case, chunk_bytes, four_items};
use crate::script::Script;

pub(super) fn groups(script: &mut Script) {
    of_material(script);
    of_items(script);
    of_areas(script);
    of_areas_and_places(script);
    of_the_end(script);
}

/// The conditions are taken away one after another.
fn of_material(script: &mut Script) {
    let right = four_items(script);
    script.label("audit: 2 before 3, 4, 5, 12, 13, 14, 15; then it passes");
    let mut case = right.clone();
    case.store[0] = 0;
    case.log_memory.pop();
    case.store[18] = 1;
    case.log_lengths.pop();
    case.auditor_store.push(1);
    case.auditor_store[1] = 9;
    chunk_bytes(&mut case.auditor_store, 2)[0] ^= 1;
    case.seal_file[0] = 0;
    script.expect((2, 0), &case);
    case.store[0] = 1;
    script.expect((3, 0), &case);
    case.log_memory = right.log_memory.clone();
    script.expect((4, 0), &case);
    case.store[18] = 0;
    script.expect((5, 0), &case);
    case.log_lengths = right.log_lengths.clone();
    script.expect((12, 0), &case);
    case.auditor_store.pop();
    script.expect((13, 0), &case);
    case.auditor_store[1] = 1;
    script.expect((14, 0), &case);
    case.auditor_store = right.auditor_store.clone();
    script.expect((15, 0), &case);
    case.seal_file[0] = 2;
    script.expect((0, 4), &case);
}

/// The conditions on item 4 of four are taken away one after another.
fn of_items(script: &mut Script) {
    let case = four_items(script);
    script.label("audit: 15 before 16; 16 before 17; 17 before 18; 18 before 21");
    let next = case.position(4);
    let mut fifth = case.item(next, next, Some((1, 7, 1))).to_bytes();
    fifth[0] = 4;
    fifth[10] = 3;
    fifth[1] = 0;
    fifth[49] ^= 1;
    let with = |item: &[u8]| case.but(|case| case.seal_file.extend(item));
    script.expect((15, 4), &with(&fifth));
    fifth[0] = 2;
    script.expect((16, 4), &with(&fifth));
    let mut longer = with(&fifth).but(|case| {
        case.burn(2);
        case.log_lengths[0] = 8;
    });
    longer.push(case.position(5), None);
    script.expect((17, 4), &longer);
    longer.seal_file[191 + 10] = 2;
    script.expect((18, 4), &longer);
    longer.seal_file[191 + 1] = 1;
    script.expect((21, 4), &longer);
    longer.seal_file[191 + 49] ^= 1;
    script.expect((0, 6), &longer);
    script.label("audit: an item's 21 before the next one's 15");
    let both = case.but(|case| {
        case.seal_file[99] ^= 1;
        case.seal_file[100] = 9;
    });
    script.expect((21, 1), &both);
}

/// Bytes 0 to 4 of 8 are covered.
fn of_areas(script: &mut Script) {
    script.label("audit: 18 before 19, 20; these before 21; then it passes");
    let unused = Case::unused(script, 1, 1, 2);
    let items = |second| unused.with_items(&[8], &[Some((1, 0, 5)), Some(second)]);
    for (second, answer) in [
        ((1, 4, 5), (18, 1)),
        ((1, 4, 4), (19, 1)),
        ((1, 6, 3), (18, 1)),
        ((1, 6, 2), (20, 1)),
        ((1, 5, 4), (18, 1)),
        ((1, 5, 3), (21, 1)),
    ] {
        let wrong = items(second).but(|case| case.seal_file[99] ^= 1);
        script.expect(answer, &wrong);
    }
    script.expect((0, 2), &items((1, 5, 3)));
    script.label("audit: an item's 19, 20 before the next one's 15; 21 first");
    let unused = Case::unused(script, 1, 1, 3);
    for (offset, refusal) in [(4, 19), (6, 20)] {
        let items = [Some((1, 0, 5)), Some((1, offset, 1)), None];
        let mut case = unused.with_items(&[8], &items);
        case.seal_file[100] = 0;
        script.expect((refusal, 1), &case);
        case.seal_file.truncate(101);
        script.expect((refusal, 1), &case);
        case.seal_file[49] ^= 1;
        script.expect((21, 0), &case);
    }
}

/// Item 2 of four begins at byte 100; 5 bytes of phase 1 are covered there.
fn of_areas_and_places(script: &mut Script) {
    let case = four_items(script);
    script.label("audit: 15, 16 and 17 before 19 and 20");
    for (offset, refusal) in [(4, 19), (6, 20)] {
        let mut case = case.but(|case| {
            case.log_lengths[0] = 8;
            case.seal_file[100] = 4;
            case.seal_file[100 + 2] = offset;
            case.seal_file[100 + 14] = 1;
            let unused = chunk_bytes(&mut case.auditor_store, 1).to_vec();
            chunk_bytes(&mut case.store, 1).copy_from_slice(&unused);
        });
        script.expect((15, 2), &case);
        case.seal_file[100] = 2;
        script.expect((16, 2), &case);
        case.burn(1);
        script.expect((17, 2), &case);
        case.seal_file[100 + 14] = 0;
        script.expect((refusal, 2), &case);
    }
}

fn of_the_end(script: &mut Script) {
    let case = four_items(script);
    script.label("audit: 21 before 22; 22 before 23; 21 before 23");
    let fewer = case.but(|case| {
        case.seal_file.truncate(150);
        case.log_lengths[0] = 8;
    });
    script.expect((21, 2), &fewer.but(|case| case.seal_file[149] ^= 1));
    script.expect((22, 0), &fewer);
    let longer = case.but(|case| {
        case.seal_file[190] ^= 1;
        case.log_lengths[0] = 8;
    });
    script.expect((21, 3), &longer);
    script.label("audit: 19 and 20 before 22 and 23");
    for (offset, refusal) in [(4, 19), (6, 20)] {
        let case = fewer.but(|case| case.seal_file[100 + 2] = offset);
        script.expect((refusal, 2), &case);
    }
}
