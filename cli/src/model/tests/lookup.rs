//! Lookups: each byte's item and area, refusal 24 at its two sides, and the
//! audit's refusals before it.

use super::audit::{Case, four_items};
use super::*;

/// The refusal and the number of `item_at`, and the begin and the length of
/// the part that `data_at` gives.
pub(super) type Found = (u32, u32, usize, usize);

pub(super) fn look_up(case: &Case, phase: u8, offset: u32) -> Found {
    let audited = Audited::new(plain_hmac, &case.presented());
    let Answer { refusal, number } = audited.item_at(phase, offset);
    let data = audited.data_at(phase, offset);
    (refusal, number, data.start, data.len())
}

/// Refused by 24.
const NO_BYTE: Found = (24, 0, 0, 0);

/// Item, phase, offset and length of each entry: every byte of its area leads
/// back to it, and the byte at the phase's length to none.
fn assert_found(case: &Case, entries: &[(u32, u8, u32, u32)]) {
    for (item, phase, start, length) in entries.iter().copied() {
        let place = LOG_CAPACITY * (usize::from(phase) - 1) + start as usize;
        let found = (0, item, place, length as usize);
        for offset in start..start + length {
            assert_eq!(look_up(case, phase, offset), found, "byte {offset}");
        }
    }
    for (phase, length) in (1..).zip(&case.log_lengths) {
        assert_eq!(look_up(case, phase, *length), NO_BYTE);
    }
}

#[test]
fn every_byte_leads_to_its_item() {
    assert_found(&four_items(), &[(0, 1, 0, 5), (1, 2, 0, 3), (2, 1, 5, 2)]);
}

/// Fillers stand among them; two phases have the same areas.
#[test]
fn items_of_two_phases_in_turns() {
    let items = [
        Some((2, 0, 4)),
        None,
        Some((1, 0, 4)),
        Some((2, 4, 6)),
        None,
        Some((1, 4, 6)),
    ];
    let case = Case::of(store(2, 3, 2), &[10, 10], &items);
    let entries = [(0, 2, 0, 4), (2, 1, 0, 4), (3, 2, 4, 6), (5, 1, 4, 6)];
    assert_found(&case, &entries);
}

#[test]
fn last_byte_of_the_last_of_eight_full_logs() {
    let items: Vec<_> = (0..16).map(|part| Some((8, 512 * part, 512))).collect();
    let case = Case::of(store(8, 1, 16), &[0, 0, 0, 0, 0, 0, 0, 8192], &items);
    assert_eq!(look_up(&case, 8, 8191), (0, 15, 65_024, 512));
    assert_eq!(look_up(&case, 8, 8192), NO_BYTE);
    assert_eq!(look_up(&case, 7, 0), NO_BYTE);
}

#[test]
fn refusal_24() {
    let case = four_items();
    for (phase, offset) in [(0, 0), (3, 0), (255, 0), (1, 7), (2, 3), (2, 6)] {
        assert_eq!(look_up(&case, phase, offset), NO_BYTE);
    }
    for offset in [8192, 1 << 16, 1 << 31, u32::MAX] {
        assert_eq!(look_up(&case, 1, offset), NO_BYTE);
    }
    let empty = Case::of(store(1, 1, 1), &[0], &[]);
    assert_eq!(look_up(&empty, 1, 0), NO_BYTE);
}

#[test]
fn refusals_of_the_audit_come_first() {
    let of = |change: fn(&mut Case)| {
        let mut case = four_items();
        change(&mut case);
        let answers = [(1, 0), (1, 7), (0, 0)].map(|(phase, offset)| look_up(&case, phase, offset));
        assert_eq!(answers, [answers[0]; 3]);
        answers[0]
    };
    assert_eq!(of(|case| case.device_store.clear()), (2, 0, 0, 0));
    assert_eq!(of(|case| case.log_memory.clear()), (3, 0, 0, 0));
    assert_eq!(of(|case| case.device_store[18] = 1), (4, 0, 0, 0));
    assert_eq!(of(|case| case.log_lengths.clear()), (5, 0, 0, 0));
    assert_eq!(of(|case| case.auditor_store.clear()), (12, 0, 0, 0));
    assert_eq!(of(|case| case.auditor_store[1] ^= 1), (13, 0, 0, 0));
    assert_eq!(of(|case| case.auditor_store[82] ^= 1), (14, 0, 0, 0));
    assert_eq!(of(|case| case.seal_file.push(0)), (15, 4, 0, 0));
    assert_eq!(of(|case| case.push(position(4, 2), None)), (16, 4, 0, 0));
    assert_eq!(of(|case| case.seal_file[151] ^= 1), (17, 3, 0, 0));
    assert_eq!(of(|case| case.seal_file[101] = 3), (18, 2, 0, 0));
    assert_eq!(of(|case| case.seal_file[102] = 4), (19, 2, 0, 0));
    assert_eq!(of(leave_a_gap), (20, 2, 0, 0));
    assert_eq!(of(|case| case.log_memory[8192] ^= 1), (21, 1, 0, 0));
    assert_eq!(of(|case| case.seal_file.truncate(150)), (22, 0, 0, 0));
    assert_eq!(of(|case| case.log_lengths[0] = 8), (23, 0, 0, 0));
}

/// Before the third of four items.
fn leave_a_gap(case: &mut Case) {
    case.log_lengths[0] = 8;
    case.seal_file[102] = 6;
}
