//! Refusals 7 to 10. `sealing` meets 11 on the way.

use super::Script;

pub(super) fn groups(script: &mut Script) {
    phases(script);
    data_lengths(script);
    log_space(script);
    seal_space_for_entries(script);
    seal_space_for_fillers(script);
}

fn phases(script: &mut Script) {
    script.label("7: phases 0, 9 and 255 of eight, 0 and 2 of one; 8, 1 pass");
    script.fresh(8, 2, 3, 500);
    for phase in [0, 9, 255, 8] {
        script.append(phase, 1, 1);
    }
    script.fresh(1, 2, 3, 500);
    for phase in [0, 2, 1] {
        script.append(phase, 1, 1);
    }
}

fn data_lengths(script: &mut Script) {
    script.label("8: data lengths 0, 513 and 1,024; 1 and 512 pass");
    script.fresh(1, 1, 4, 500);
    for length in [0, 513, 1024, 1, 512, 2] {
        script.append(1, length, 3);
    }
}

fn log_space(script: &mut Script) {
    script.label("9: log at 8,190: 3 do not pass, 2 do; then it is full");
    script.fresh(2, 2, 3, 500);
    script.open(&[8190, 7680], 0);
    for (phase, length) in [(1, 3), (1, 2), (1, 1), (2, 512), (2, 1)] {
        script.append(phase, length, 200);
    }
    script.close();
}

fn seal_space_for_entries(script: &mut Script) {
    script.label("10: an entry in 49 bytes; in 50 it passes; then they are full");
    for seal_memory in [49, 50] {
        script.fresh(1, 3, 1, seal_memory);
        script.append(1, 1, 1);
    }
    script.append(1, 1, 1);
    script.close();
}

fn seal_space_for_fillers(script: &mut Script) {
    script.label("10: two fillers in 81 bytes, where an append passes, then one");
    script.fresh(1, 2, 3, 131);
    script.append(1, 1, 1);
    script.close();
    script.append(1, 1, 2);
    script.close();
    script.label("10: two fillers in 82 bytes pass; 255 in 10,454 do not");
    script.fresh(1, 2, 3, 132);
    script.append(1, 1, 1);
    script.close();
    script.append(1, 1, 2);
    script.fresh(1, 1, 256, 10_504);
    script.append(1, 1, 1);
    script.close();
}
