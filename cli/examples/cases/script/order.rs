//! Two conditions at once: the earlier number is given.

use super::{Script, Shape};

pub(super) fn groups(script: &mut Script) {
    of_open(script);
    of_state(script);
    of_append(script);
    of_close(script);
}

/// The conditions are taken away one after another.
fn of_open(script: &mut Script) {
    script.label("open: 2 before 3, 3 before 4, 4 before 5, 5 before 6");
    script.fresh(1, 3, 1, 100);
    script.set_chunk(1);
    script.append(1, 1, 1);
    script.set_store(0, 0);
    script.set_store(9, 2);
    script.open(&[], 101);
    script.set_store(0, 1);
    script.open(&[], 101);
    script.set_store(9, 1);
    script.open(&[], 101);
    script.set_store(50, 1);
    script.open(&[], 101);
    script.open(&[0], 101);
}

fn of_state(script: &mut Script) {
    script.label("append and close: 2 before 3, 3 before 6");
    let log_memory = 8191;
    script.material(Shape {
        log_memory,
        ..Shape::of(1, 1, 1, 100)
    });
    script.set_offset(1);
    for kind in [0, 1] {
        script.set_store(0, kind);
        script.append(0, 0, 1);
        script.close();
    }
}

/// The conditions are taken away one after another.
fn of_append(script: &mut Script) {
    script.label("append: 6 before 7, then 8, 9, 10, 11; then it passes");
    script.fresh(1, 1, 1, 50);
    script.open(&[8192], 1);
    script.set_chunk(2);
    script.append(0, 513, 1);
    script.set_chunk(1);
    script.append(0, 513, 1);
    script.append(1, 513, 1);
    script.append(1, 1, 1);
    script.set_log_length(0, 8191);
    script.append(1, 1, 1);
    script.set_seal_length(0);
    script.append(1, 1, 1);
    script.set_chunk(0);
    script.append(1, 1, 1);
}

fn of_close(script: &mut Script) {
    script.label("close: 6 before 10");
    script.fresh(1, 2, 3, 50);
    script.append(1, 1, 1);
    script.set_log_length(1, 1);
    script.close();
    script.set_log_length(1, 0);
    script.close();
}
