//! Histories that the audit accepts, and lookups in them.

use super::SETS;
use crate::script::audits::Case;
use crate::script::{Script, Shape};

pub(super) fn groups(script: &mut Script) {
    two_entries(script);
    opened_again(script);
    eight_phases(script);
    full_log(script);
}

/// Presents what the calls so far have left.
fn untouched(script: &mut Script, item_count: u32) -> Case {
    let case = Case::left(script);
    script.expect((0, item_count), &case);
    case
}

/// The longest data in phase 2, a single byte in phase 1, and a filler.
fn two_entries(script: &mut Script) {
    for set in SETS {
        script.label_set(set, "two appends, close, audit, lookups");
        let most = set.data_limit;
        script.material(Shape::own(set, 2, 2, 3, 150));
        script.keep();
        script.expect_open(0, &[0, 0], 0);
        script.expect_append((0, 0), 2, most);
        script.expect_append((0, 1), 1, 1);
        script.expect_close((0, 1));
        let case = untouched(script, 3);
        script.expect_item((0, 2, 0, most), &case, (2, 0));
        script.expect_item((0, 2, 0, most), &case, (2, most - 1));
        script.expect_item((1, 1, 0, 1), &case, (1, 0));
        script.expect_none((24, 0), &case, (2, most));
        script.expect_none((24, 0), &case, (1, 1));
    }
}

/// An entry of 34 bytes and two fillers of 25 stand before the second open.
fn opened_again(script: &mut Script) {
    script.label("kind 6: closed and opened again: the next chunk");
    script.material(Shape::own(SETS[0], 1, 3, 3, 300));
    script.keep();
    script.expect_append((0, 0), 1, 1);
    script.expect_close((0, 2));
    script.expect_open(0, &[1], 84);
    for number in 3..7 {
        script.expect_append((0, number), 1, 1);
    }
    script.expect_close((0, 2));
    let case = untouched(script, 9);
    script.expect_item((6, 1, 4, 1), &case, (1, 4));
}

fn eight_phases(script: &mut Script) {
    for set in &SETS[..2] {
        script.label_set(*set, "eight phases, each one's place");
        let most = set.data_limit;
        script.material(Shape::own(*set, 8, 2, 4, 400));
        script.keep();
        for phase in 1..=8 {
            script.expect_append((0, u32::from(phase) - 1), phase, most);
        }
        let case = untouched(script, 8);
        for phase in [1, 2, 8] {
            let item = (u32::from(phase) - 1, phase, 0, most);
            script.expect_item(item, &case, (phase, most - 1));
        }
    }
}

fn full_log(script: &mut Script) {
    script.label("kind 6: a log of 65,536 bytes in 16 items");
    script.material(Shape::own(SETS[2], 1, 1, 16, 1000));
    script.keep();
    for number in 0..16 {
        script.expect_append((0, number), 1, 4096);
    }
    script.expect_append((9, 0), 1, 1);
    let case = untouched(script, 16);
    for (offset, item) in [(61_439, 14), (61_440, 15), (65_535, 15)] {
        script.expect_item((item, 1, 4096 * item, 4096), &case, (1, offset));
    }
    script.expect_none((24, 0), &case, (1, 65_536));
}
