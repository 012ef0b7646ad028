//! Refusals 2 to 5 and 12 to 14 of audit and lookup.

use pahyndoi::model::Set;

use super::{EDGES, SETS, one_key, set};
use crate::script::audits::{Case, chunk_bytes};
use crate::script::{HEADER_LENGTH, OWN_SET_KIND, Script, Shape, nearly_burned, set_bytes};

/// Where a header has its set.
const SET_PLACE: usize = HEADER_LENGTH as usize;

pub(super) fn groups(script: &mut Script) {
    edges_in_both_stores(script);
    edges_in_the_auditor_store(script);
    other_bytes(script);
    chunks(script);
    log_memory(script);
    log_lengths(script);
    headers_differ(script);
    kinds_differ(script);
}

/// Puts another set into a header.
fn put_set(store: &mut [u8], set: Set) {
    let bytes = set_bytes(set);
    store[SET_PLACE..][..bytes.len()].copy_from_slice(&bytes);
}

/// Makes a store of kind 1 one of kind 6, with the set that it is read as.
fn put_kind_6(store: &mut Vec<u8>) {
    store[0] = OWN_SET_KIND;
    store.splice(SET_PLACE..SET_PLACE, set_bytes(Set::COMMON));
}

/// Two phases, three chunks, N = 2: the longest data, a single byte, and two
/// fillers; two chunks burned.
pub(super) fn four_items(script: &mut Script, set: Set) -> Case {
    let items = [Some((2, 0, set.data_limit)), Some((1, 0, 1)), None, None];
    let unused = Case::unused_of(script, Shape::own(set, 2, 3, 2, 300));
    unused.with_items(&[1, set.data_limit], &items)
}

/// No phase has a byte, so where the stores are right a lookup gives 24.
fn edges_in_both_stores(script: &mut Script) {
    script.label("kind 6: audit, lookup: sets at their edges: 2, or 0 and 24");
    for (set, refusal) in EDGES {
        script.material(one_key(set));
        script.keep();
        script.audit(&[0], 0);
        script.assert_answer((refusal, 0));
        script.look_up(&[0], 0, 1, 0);
        script.assert_answer((if refusal == 0 { 24 } else { refusal }, 0));
    }
}

fn edges_in_the_auditor_store(script: &mut Script) {
    script.label("kind 6: the same in the auditor's store: 12, or 13");
    let case = four_items(script, Set::COMMON);
    let others = EDGES.iter().filter(|(set, _)| *set != Set::COMMON);
    for (set, refusal) in others {
        let answer = if *refusal == 0 { (13, 0) } else { (12, 0) };
        let other = case.but(|case| put_set(&mut case.auditor_store, *set));
        script.expect(answer, &other);
        script.expect_none(answer, &other, (1, 0));
    }
    script.expect((0, 4), &case);
    script.expect_item((1, 1, 0, 1), &case, (1, 0));
}

/// Changes that make a store of one chunk bad.
fn spoil(store: &mut Vec<u8>, way: usize) {
    match way {
        0..=4 => store[0] = [0, 1, 2, 5, 7][way],
        5 => store.push(1),
        6 => store.truncate(58),
        7 => store.truncate(50),
        8 => store.truncate(27),
        _ => store.truncate(26),
    }
}

const WAYS: usize = 10;

fn other_bytes(script: &mut Script) {
    let case = Case::unused_of(script, one_key(SETS[0]));
    script.label("kind 6: 2: kinds 0, 1, 2, 5, 7; 60, 58, 50, 27, 26 bytes");
    for way in 0..WAYS {
        script.expect((2, 0), &case.but(|case| spoil(&mut case.store, way)));
    }
    script.label("kind 6: 12: the same of the auditor's store; 59 bytes pass");
    for way in 0..WAYS {
        let spoiled = case.but(|case| spoil(&mut case.auditor_store, way));
        script.expect((12, 0), &spoiled);
    }
    script.expect((0, 0), &case);
}

/// Chunk c begins at byte 27 + 32 × c.
fn chunks(script: &mut Script) {
    let case = four_items(script, SETS[0]);
    script.label("kind 6: 4: bytes 27 and 58 left of chunk 0; of chunk 1: 14");
    for (index, refusal) in [(27, 4), (58, 4), (59, 14), (90, 14)] {
        let left = case.but(|case| case.store[index] = 1);
        script.expect((refusal, 0), &left);
    }
    script.label("kind 6: 12: chunk 0 or 2 burned; all but byte 0 or 31 passes");
    for number in [0, 2] {
        let burned = case.but(|case| chunk_bytes(&mut case.auditor_store, number).fill(0));
        script.expect((12, 0), &burned);
    }
    for left in [(0, 1), (31, 128)] {
        let both = case.but(|case| {
            for store in [&mut case.store, &mut case.auditor_store] {
                chunk_bytes(store, 2).copy_from_slice(&nearly_burned(&[left]));
            }
        });
        script.expect((0, 4), &both);
    }
    script.label("kind 6: 14: bytes 91 and 122; of burned chunk 1: 21");
    for index in [91, 122] {
        script.expect((14, 0), &case.but(|case| case.store[index] ^= 1));
    }
    for index in [59, 90] {
        let other_key = case.but(|case| case.auditor_store[index] ^= 1);
        script.expect((21, 2), &other_key);
    }
}

/// Longer first, so that few bytes must be set again.
fn log_memory(script: &mut Script) {
    for set in SETS {
        script.label_set(set, "audit: 3: one byte more, one short");
        let case = four_items(script, set);
        script.expect((0, 4), &case);
        script.expect((3, 0), &case.but(|case| case.log_memory.push(0)));
        let shorter = case.but(|case| {
            case.log_memory.pop();
        });
        script.expect((3, 0), &shorter);
    }
}

/// At the capacity bytes are uncovered, unless the longest data fill the log.
fn log_lengths(script: &mut Script) {
    for set in SETS {
        script.label_set(set, "audit: 5: one above the capacity");
        let case = four_items(script, set);
        let capacity = set.log_capacity;
        for index in [0, 1] {
            let with = |length| case.but(|case| case.log_lengths[index] = length);
            let full = case.log_lengths[index] == capacity;
            script.expect(if full { (0, 4) } else { (23, 0) }, &with(capacity));
            script.expect((5, 0), &with(capacity + 1));
        }
    }
}

/// Where the device's store has another capacity, the log memory has it too.
fn headers_differ(script: &mut Script) {
    script.label("kind 6: 13: tag 31, limit 511, capacity 8,191 in one store");
    let case = four_items(script, Set::COMMON);
    for other in [set(31, 512, 8192), set(32, 511, 8192), set(32, 512, 8191)] {
        let of_auditor = case.but(|case| put_set(&mut case.auditor_store, other));
        script.expect((13, 0), &of_auditor);
        let of_device = case.but(|case| {
            put_set(&mut case.store, other);
            case.log_memory.truncate(2 * other.log_capacity as usize);
        });
        script.expect((13, 0), &of_device);
    }
}

/// The chunks are the same, and so is the set in effect.
fn kinds_differ(script: &mut Script) {
    script.label("kind 6: 13: 32, 512, 8,192 against kind 1, and the other way");
    let unused = Case::unused_of(script, Shape::of(1, 2, 1, 100));
    let case = unused.with_items(&[1], &[Some((1, 0, 1))]);
    let device_6 = case.but(|case| put_kind_6(&mut case.store));
    let auditor_6 = case.but(|case| put_kind_6(&mut case.auditor_store));
    let both_6 = device_6.but(|case| put_kind_6(&mut case.auditor_store));
    for different in [device_6, auditor_6] {
        script.expect((13, 0), &different);
        script.expect_none((13, 0), &different, (1, 0));
    }
    for same in [both_6, case] {
        script.expect((0, 1), &same);
        script.expect_item((0, 1, 0, 1), &same, (1, 0));
    }
}
