//! Which item sealed a byte: first and last bytes of areas, refusal 24 at its
//! two sides, and the audit's refusals before it. Each row says what the
//! lookups answer.

use super::audits::{Case, chunk_bytes};
use super::{LOG_CAPACITY, Script, Shape};
use crate::record::MEMORY_STORE;

pub(super) fn groups(script: &mut Script) {
    one_phase(script);
    let case = eight_phases(script);
    refused_material(script, &case);
    other_order(script);
    refused_stores(script);
}

/// An item's number, and the phase, the offset and the length of its area.
pub(super) type Found = (u32, u8, u32, u32);

impl Script {
    /// Presents the case. The byte must lead to this item and its area.
    pub(super) fn expect_item(&mut self, item: Found, case: &Case, (phase, offset): (u8, u32)) {
        let (number, of_phase, start, length) = item;
        let place = case.header().log_start(of_phase) + start as usize;
        let part = place..place + length as usize;
        self.look_up_in(case, phase, offset);
        self.assert_answer((0, number));
        assert_eq!(self.machine.part, part);
    }

    /// Presents the case. The lookup must give this refusal and this number,
    /// and no part.
    pub(super) fn expect_none(
        &mut self,
        answer: (u32, u32),
        case: &Case,
        (phase, offset): (u8, u32),
    ) {
        self.look_up_in(case, phase, offset);
        self.assert_refused(answer);
    }

    fn look_up_in(&mut self, case: &Case, phase: u8, offset: u32) {
        self.present(case);
        let seal_length = case.seal_file.len() as u32;
        self.look_up(&case.log_lengths, seal_length, phase, offset);
    }

    fn assert_refused(&self, answer: (u32, u32)) {
        self.assert_answer(answer);
        assert_eq!(self.machine.part, 0..0);
    }
}

/// Item 0 has bytes 0 to 4, item 1 bytes 5 to 7.
fn one_phase(script: &mut Script) {
    script.label("lookup: one phase: first and last bytes of two items");
    script.fresh(1, 1, 2, 100);
    script.keep();
    script.append(1, 5, 1);
    script.append(1, 3, 21);
    let case = Case::left(script);
    for (offset, item) in [
        (0, (0, 1, 0, 5)),
        (4, (0, 1, 0, 5)),
        (5, (1, 1, 5, 3)),
        (7, (1, 1, 5, 3)),
    ] {
        script.expect_item(item, &case, (1, offset));
    }
    script.label("24: offset 8 of 8, the largest; phases 0, 2 and 255 of one");
    for place in [(1, 8), (1, u32::MAX), (0, 0), (2, 0), (255, 0)] {
        script.expect_none((24, 0), &case, place);
    }
}

/// Twelve items of phases 1, 3 and 8, of which 2, 7 and 8 are fillers.
fn eight_phases(script: &mut Script) -> Case {
    script.label("lookup: eight phases, entries in turns, fillers among them");
    script.fresh(8, 4, 3, 600);
    script.keep();
    script.append(1, 4, 1);
    script.append(8, 6, 2);
    script.close();
    script.append(3, 10, 3);
    script.append(1, 2, 4);
    script.append(8, 3, 5);
    script.append(3, 512, 6);
    script.close();
    script.append(8, 1, 7);
    script.append(1, 5, 8);
    script.append(3, 7, 9);
    let case = Case::left(script);
    for (place, item) in [
        ((3, 9), (3, 3, 0, 10)),
        ((3, 10), (6, 3, 10, 512)),
        ((3, 521), (6, 3, 10, 512)),
        ((3, 522), (11, 3, 522, 7)),
        ((1, 5), (4, 1, 4, 2)),
        ((1, 6), (10, 1, 6, 5)),
        ((8, 0), (1, 8, 0, 6)),
        ((8, 8), (5, 8, 6, 3)),
        ((8, 9), (9, 8, 9, 1)),
    ] {
        script.expect_item(item, &case, place);
    }
    script.label("24: behind phase 8; in phase 2, which has no byte; phase 9");
    for place in [(8, 10), (2, 0), (9, 0)] {
        script.expect_none((24, 0), &case, place);
    }
    case
}

/// Item 4 begins at byte 191 of the seal file, item 11 at 523; it has 573.
fn refused_material(script: &mut Script, case: &Case) {
    script.label("lookup: audit's 15 to 23, some where 24 holds too");
    let byte = |index: usize, value: u8| case.but(|case| case.seal_file[index] = value);
    let cut = |length| case.but(|case| case.seal_file.truncate(length));
    let length = |phase: usize, length| case.but(|case| case.log_lengths[phase - 1] = length);
    script.expect_none((15, 11), &cut(572), (3, 529));
    script.expect_none((22, 0), &cut(523), (3, 0));
    script.expect_none((18, 11), &length(3, 528), (3, 528));
    script.expect_none((23, 0), &length(2, 1), (9, 0));
    let rolled_back = case.but(|case| {
        let unused = chunk_bytes(&mut case.auditor_store, 3).to_vec();
        chunk_bytes(&mut case.store, 3).copy_from_slice(&unused);
    });
    script.expect_none((16, 9), &rolled_back, (1, 0));
    script.expect_none((17, 4), &byte(191 + 14, 2), (1, 11));
    script.expect_none((19, 4), &byte(191 + 2, 3), (0, 0));
    script.expect_none((19, 4), &byte(191 + 2, 3), (1, 0));
    script.expect_none((20, 4), &byte(191 + 2, 5), (1, 11));
    script.expect_none((20, 4), &byte(191 + 2, 5), (1, 0));
    let altered = case.but(|case| case.log_memory[LOG_CAPACITY as usize * 7 + 9] ^= 1);
    script.expect_none((21, 9), &altered, (8, 9));
}

/// Three entries of 2 bytes each, of which the last two are exchanged.
fn other_order(script: &mut Script) {
    script.label("lookup: three items; 20: the last two exchanged");
    let [one, other] = [Some((1, 2, 2)), Some((1, 4, 2))];
    let unused = Case::unused_of(script, Shape::of(1, 1, 3, 200));
    let rising = unused.with_items(&[6], &[Some((1, 0, 2)), one, other]);
    for (offset, item) in [
        (1, (0, 1, 0, 2)),
        (2, (1, 1, 2, 2)),
        (3, (1, 1, 2, 2)),
        (4, (2, 1, 4, 2)),
    ] {
        script.expect_item(item, &rising, (1, offset));
    }
    let exchanged = unused.with_items(&[6], &[Some((1, 0, 2)), other, one]);
    for offset in [0, 2, 5, 6] {
        script.expect_none((20, 1), &exchanged, (1, offset));
    }
}

/// 24 holds in each row, since no phase has a byte.
fn refused_stores(script: &mut Script) {
    script.label("lookup: audit's 2, 3, 5, 12, 13, 14 and 4, where 24 holds too");
    let right = Shape::of(1, 2, 1, 100);
    let refused = |script: &mut Script, lengths: &[u32], refusal| {
        script.look_up(lengths, 0, 1, 0);
        script.assert_refused((refusal, 0));
    };
    script.material(Shape { kind: 0, ..right });
    refused(script, &[0], 2);
    let log_memory = 8191;
    script.material(Shape {
        log_memory,
        ..right
    });
    refused(script, &[0], 3);
    script.material(right);
    refused(script, &[0, 0], 5);
    refused(script, &[0], 12);
    script.keep();
    refused(script, &[0], 24);
    script.set_store(1, 9);
    refused(script, &[0], 13);
    script.set_store(1, 1);
    script.set_store(81, 1);
    refused(script, &[0], 14);
    script.set_bytes(MEMORY_STORE, 50, &[0; 32]);
    refused(script, &[0], 4);
}
