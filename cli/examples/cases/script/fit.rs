//! Refusal 6 of append and close: each clause of a state that fits.

use super::Script;

pub(super) fn groups(script: &mut Script) {
    offset_below_ratchet(script);
    chunk_up_to_count(script);
    burned_half_way(script);
    log_lengths(script);
    seal_length(script);
    after_a_refused_open(script);
}

/// Close first: where the state fits at offset 0 it changes nothing.
fn both_calls(script: &mut Script) {
    script.close();
    script.append(1, 1, 1);
}

fn offset_below_ratchet(script: &mut Script) {
    script.label("6: offset N and the largest; N - 1 passes; N = 3, then 1");
    script.fresh(1, 2, 3, 1000);
    script.append(1, 1, 1);
    for offset in [3, u32::MAX, 2] {
        script.set_offset(offset);
        both_calls(script);
    }
    script.fresh(1, 2, 1, 1000);
    script.append(1, 1, 1);
    script.set_chunk(0);
    script.set_offset(1);
    both_calls(script);
}

fn chunk_up_to_count(script: &mut Script) {
    script.label("6: chunk above the count; at it 11, with offset 1 again 6");
    script.fresh(1, 2, 3, 1000);
    for chunk in [3, u32::MAX, 2] {
        script.set_chunk(chunk);
        both_calls(script);
    }
    script.set_offset(1);
    both_calls(script);
}

fn burned_half_way(script: &mut Script) {
    script.label("6: offset 1, chunk not burned; chunk 1 at offset 0 passes");
    script.fresh(1, 3, 3, 1000);
    script.set_offset(1);
    both_calls(script);
    script.set_chunk(1);
    script.set_offset(0);
    both_calls(script);
    script.label("6: offset 1, one byte of the chunk left");
    for index in [50, 81] {
        script.set_store(index, 1);
        both_calls(script);
        script.set_store(index, 0);
    }
    script.label("6: offset 0, chunk burned; with one byte left it passes");
    script.set_offset(0);
    both_calls(script);
    script.set_store(81, 1);
    both_calls(script);
}

fn log_lengths(script: &mut Script) {
    script.label("6: a log of 8,193, a length beyond the phases; 8,192 passes");
    script.fresh(2, 3, 1, 1000);
    for length in [8193, 8192] {
        script.set_log_length(1, length);
        both_calls(script);
    }
    for index in [2, 7] {
        script.set_log_length(index, 1);
        both_calls(script);
        script.set_log_length(index, 0);
    }
    both_calls(script);
}

fn seal_length(script: &mut Script) {
    script.label("6: seal length above the seal memory; at it 10, or none");
    script.fresh(1, 1, 1, 100);
    for length in [101, 1 << 32, 100] {
        script.set_seal_length(length);
        both_calls(script);
    }
}

fn after_a_refused_open(script: &mut Script) {
    script.label("a refused open gives zeros: they fit while no item stands");
    script.fresh(1, 2, 1, 500);
    script.open(&[], 0);
    both_calls(script);
    script.open(&[], 0);
    both_calls(script);
    script.open(&[1], 50);
    both_calls(script);
}
