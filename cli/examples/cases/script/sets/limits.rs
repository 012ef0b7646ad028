//! Refusals 6 and 8 to 10.

use super::SETS;
use crate::script::{Script, Shape};

pub(super) fn groups(script: &mut Script) {
    log_lengths(script);
    data_lengths(script);
    log_space(script);
    seal_space_for_entries(script);
    seal_space_for_fillers(script);
    most_fillers(script);
}

fn log_lengths(script: &mut Script) {
    for set in SETS {
        script.label_set(set, "6: a log one above the capacity");
        script.material(Shape::own(set, 2, 1, 1, 100));
        script.set_log_length(1, set.log_capacity + 1);
        script.expect_close((6, 0));
        script.expect_append((6, 0), 1, 1);
        script.set_log_length(1, set.log_capacity);
        script.expect_close((0, 0));
        script.expect_append((9, 0), 2, 1);
        script.expect_append((0, 0), 1, 1);
    }
}

fn data_lengths(script: &mut Script) {
    for set in SETS {
        script.label_set(set, "8: none, one above the limit");
        script.material(Shape::own(set, 1, 1, 1, 100));
        script.expect_append((8, 0), 1, 0);
        script.expect_append((8, 0), 1, set.data_limit + 1);
        script.expect_append((0, 0), 1, set.data_limit);
    }
}

fn log_space(script: &mut Script) {
    for set in SETS {
        script.label_set(set, "9: one byte short; just room; full");
        let most = set.data_limit;
        let begin = set.log_capacity - most;
        script.material(Shape::own(set, 2, 2, 1, 100));
        script.expect_open(0, &[0, begin + 1], 0);
        script.expect_append((9, 0), 2, most);
        script.expect_open(0, &[0, begin], 0);
        script.expect_append((0, 0), 2, most);
        script.expect_append((9, 0), 2, 1);
        script.expect_append((0, 1), 1, most);
    }
}

fn seal_space_for_entries(script: &mut Script) {
    for set in SETS {
        script.label_set(set, "10: an entry, one byte short");
        let entry = set.entry_length() as u32;
        for (seal_memory, refusal) in [(entry - 1, 10), (entry, 0)] {
            script.material(Shape::own(set, 1, 3, 1, seal_memory));
            script.expect_append((refusal, 0), 1, 1);
        }
        script.expect_append((10, 0), 1, 1);
        script.expect_close((0, 0));
    }
}

fn seal_space_for_fillers(script: &mut Script) {
    for set in SETS {
        script.label_set(set, "10: two fillers, one byte short");
        let whole = (set.entry_length() + 2 * set.filler_length()) as u32;
        for (seal_memory, closed) in [(whole - 1, (10, 0)), (whole, (0, 2))] {
            script.material(Shape::own(set, 1, 2, 3, seal_memory));
            script.expect_append((0, 0), 1, 1);
            script.expect_close(closed);
        }
        script.expect_append((10, 0), 1, 1);
    }
}

/// An entry of 34 bytes and 255 fillers of 25.
fn most_fillers(script: &mut Script) {
    script.label("kind 6: 10: 255 fillers in 6,374 bytes; in 6,375 they pass");
    for (seal_memory, closed) in [(6408, (10, 0)), (6409, (0, 255))] {
        script.material(Shape::own(SETS[0], 1, 1, 256, seal_memory));
        script.expect_append((0, 0), 1, 1);
        script.expect_close(closed);
    }
}
