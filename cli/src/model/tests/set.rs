//! Sets of parameters: a header of kind 6 at the two sides of each edge, and
//! what follows the set.

use super::audit::Case;
use super::lookup::look_up;
use super::sealing::{of_state, refusals, with_store_byte};
use super::*;

const SETS: [Set; 4] = [
    set(16, 1, 512),
    set(16, 4096, 4096),
    set(32, 4096, 65_536),
    Set::COMMON,
];

const fn set(tag_length: u8, data_limit: u32, log_capacity: u32) -> Set {
    Set {
        tag_length,
        data_limit,
        log_capacity,
    }
}

/// One phase, one chunk, N = 1.
fn device_of(set: Set) -> Device {
    Device::of(Some(set), 1, 1, 1, 100)
}

#[test]
fn refusal_2_by_the_set() {
    for (set, expected) in [
        (set(15, 512, 8192), 2),
        (set(16, 512, 8192), 0),
        (set(32, 512, 8192), 0),
        (set(33, 512, 8192), 2),
        (set(32, 0, 8192), 2),
        (set(32, 1, 8192), 0),
        (set(32, 4096, 8192), 0),
        (set(32, 4097, 8192), 2),
        (set(32, 1, 511), 2),
        (set(32, 1, 512), 0),
        (set(32, 512, 65_536), 0),
        (set(32, 512, 65_537), 2),
        (set(32, 4096, 4095), 2),
        (set(32, 4096, 4096), 0),
        (set(32, 513, 512), 2),
        (set(32, 512, 512), 0),
    ] {
        assert_eq!(refusals(&device_of(set)), [expected; 3], "{set:?}");
        assert_eq!(set.is_in_range(), expected == 0, "{set:?}");
    }
}

/// The first byte of a number is not all of it.
#[test]
fn refusal_2_by_the_high_bytes_of_the_set() {
    let store = store_of(Some(Set::COMMON), 1, 1, 1);
    assert!(Header::parse(&store).is_some());
    for index in [21, 22, 25, 26] {
        let mut store = store.clone();
        store[index] |= 0x80;
        assert_eq!(Header::parse(&store), None, "byte {index}");
    }
}

#[test]
fn refusal_2_by_the_fields_of_both_kinds() {
    for (phases, chunk_count, ratchet, expected) in [
        (0, 1, 1, 2),
        (8, 1, 1, 0),
        (9, 1, 1, 2),
        (1, 0, 1, 2),
        (1, 1024, 1, 0),
        (1, 1025, 1, 2),
        (1, 1, 0, 2),
        (1, 1, 256, 0),
        (1, 1, 257, 2),
    ] {
        let device = Device::of(Some(SETS[0]), phases, chunk_count, ratchet, 20_000);
        assert_eq!(refusals(&device), [expected; 3]);
    }
}

#[test]
fn refusal_2_by_the_length() {
    let right = device_of(Set::COMMON);
    assert_eq!(right.material.store.len(), 59);
    for length in [0, 1, 17, 18, 26, 27, 50, 58, 59, 60, 91] {
        let mut device = right.clone();
        device.material.store.resize(length, 9);
        let expected = if length == 59 { 0 } else { 2 };
        assert_eq!(refusals(&device), [expected; 3], "{length} bytes");
    }
}

#[test]
fn refusal_2_by_the_kind() {
    let (kind_1, kind_6) = (Device::new(1, 1, 1, 100), device_of(Set::COMMON));
    for kind in [0, 1, 2, 5, 6, 7, 255] {
        let refusals = |device| refusals(&with_store_byte(device, 0, kind));
        let expected = |right| if kind == right { [0; 3] } else { [2; 3] };
        assert_eq!(refusals(&kind_1), expected(1), "kind {kind}");
        assert_eq!(refusals(&kind_6), expected(6), "kind {kind}");
    }
}

#[test]
fn headers_read_back() {
    let own_sets = SETS.map(Some);
    for own_set in own_sets.into_iter().chain([None]) {
        let store = store_of(own_set, 3, 4, 5);
        let header = Header {
            id: ID,
            phases: 3,
            chunk_count: 4,
            ratchet: 5,
            own_set,
        };
        assert_eq!(Header::parse(&store), Some(header));
        assert_eq!(header.set(), own_set.unwrap_or(Set::COMMON));
        assert_eq!(header.length(), if own_set.is_some() { 27 } else { 18 });
        assert_eq!(header.to_bytes(), store[..header.length()]);
        assert_eq!(header.store_length(), store.len());
    }
}

#[test]
fn bytes_of_a_header_of_kind_6() {
    let bytes = [
        6, 1, 2, 3, 4, 5, 6, 7, 8, 2, 3, 0, 0, 0, 0, 1, 0, 0, 16, 0, 16, 0, 0, 0, 0, 1, 0,
    ];
    let store = store_of(Some(set(16, 4096, 65_536)), 2, 3, 256);
    assert_eq!(store[..27], bytes);
    let header = Header::parse(&store).expect("a store");
    assert_eq!(header.to_bytes(), bytes);
    assert_eq!(header.log_memory_length(), 131_072);
    assert_eq!([header.log_start(1), header.log_start(2)], [0, 65_536]);
    assert_eq!(chunk(&store, 1), store[59..91]);
}

#[test]
fn lengths_of_items() {
    let lengths = |set: Set| (set.entry_length(), set.filler_length());
    assert_eq!(lengths(set(16, 1, 512)), (34, 25));
    assert_eq!(lengths(Set::COMMON), (50, 41));
}

/// What a device is left with by an append of the longest data, one of a single
/// byte and a close, and what the audit says of it.
#[test]
fn short_histories() {
    for set in SETS {
        let mut device = Device::of(Some(set), 2, 2, 3, 150);
        let unused = device.material.store.clone();
        let (most, capacity) = (set.data_limit as usize, set.log_capacity as usize);
        let longest = vec![5; most];
        assert_eq!(device.open(&[0, 0], 0), 0);
        assert_eq!(device.append(2, &longest), (0, 0));
        assert_eq!(device.append(1, b"a"), (0, 1));
        assert_eq!(device.close(), (0, 1));
        let Material {
            store, log_memory, ..
        } = &device.material;
        assert_eq!(store[..27], unused[..27]);
        assert!(is_burned(&store[27..59]));
        assert_eq!(store[59..], unused[59..]);
        assert_eq!(log_memory[..2], [b'a', 0xee]);
        assert_eq!(log_memory[capacity - 1], 0xee);
        assert_eq!(log_memory[capacity..capacity + most], longest);
        let items = 2 * set.entry_length() + set.filler_length();
        assert_eq!(device.seal_file().len(), items);
        let case = Case {
            device_store: store.clone(),
            auditor_store: unused,
            log_memory: log_memory.clone(),
            log_lengths: vec![1, set.data_limit],
            seal_file: device.seal_file().to_vec(),
        };
        assert_eq!(case.audit(), (0, 3), "{set:?}");
        let last = set.data_limit - 1;
        assert_eq!(look_up(&case, 2, last), (0, 0, capacity, most));
        assert_eq!(look_up(&case, 1, 0), (0, 1, 0, 1));
        assert_eq!(look_up(&case, 1, 1), (24, 0, 0, 0));
    }
}

/// The tag is the front of the whole one; the keys that follow are whole.
#[test]
fn effect_of_append() {
    for tag_length in [16, 17, 31] {
        let mut device = Device::of(Some(set(tag_length, 4, 512)), 1, 1, 2, 100);
        let chunk = chunk(&device.material.store, 0);
        assert_eq!(device.append(1, b"abc"), (0, 0));
        let head = [2, 1, 0, 0, 0, 0, 3, 0, 0, 0, 0, 0, 0, 0, 0, 0, 0, 0];
        let whole = crate::plain::hmac_sha256(&chunk, &[&ID[..], &head, b"abc"].concat());
        let tag = &whole[..usize::from(tag_length)];
        assert_eq!(device.seal_file(), [&head[..], tag].concat());
        assert_eq!(device.material.seal_memory[device.seal_file().len()], 0xdd);
        let ratchet_message = [&ID[..], &[4, 1, 0, 0, 0, 2, 0, 0, 0]].concat();
        let next = crate::plain::hmac_sha256(&chunk, &ratchet_message);
        assert_eq!(device.state.held_key, next);
    }
}

#[test]
fn refusals_3_and_5() {
    for set in SETS {
        let capacity = set.log_capacity;
        let right = Device::of(Some(set), 2, 1, 1, 100);
        for (length, expected) in [(-1, 3), (0, 0), (1, 3)] {
            let mut device = right.clone();
            let length = (2 * capacity as usize).wrapping_add_signed(length);
            device.material.log_memory.resize(length, 0);
            assert_eq!(refusals(&device), [expected; 3], "{set:?}");
        }
        let open = |lengths: &[u32]| right.clone().open(lengths, 0);
        assert_eq!(open(&[capacity, capacity]), 0);
        assert_eq!(open(&[capacity + 1, 0]), 5);
        assert_eq!(open(&[0, capacity + 1]), 5);
    }
}

#[test]
fn refusals_6_8_and_9() {
    for set in SETS {
        let capacity = set.log_capacity;
        let most = set.data_limit as usize;
        let device = Device::of(Some(set), 2, 1, 1, 100);
        for (length, expected) in [(capacity, 0), (capacity + 1, 6)] {
            let refusals = of_state(&device, |state| state.log_lengths[1] = length);
            assert_eq!(refusals, [expected; 2], "{set:?}");
        }
        for (length, expected) in [(0, 8), (1, 0), (most, 0), (most + 1, 8)] {
            let answer = device.clone().append(2, &vec![5; length]);
            assert_eq!(answer, (expected, 0), "{set:?}, {length} bytes");
        }
        for (free, expected) in [(most as u32, 0), (most as u32 - 1, 9)] {
            let mut device = device.clone();
            assert_eq!(device.open(&[0, capacity - free], 0), 0);
            let answer = device.append(2, &vec![5; most]);
            assert_eq!(answer, (expected, 0), "{set:?}, {free} bytes free");
        }
    }
}

#[test]
fn refusal_10() {
    for set in SETS {
        let (entry, fillers) = (set.entry_length(), 2 * set.filler_length());
        for (seal_memory, appended, closed) in [
            (entry - 1, (10, 0), (0, 0)),
            (entry, (0, 0), (10, 0)),
            (entry + fillers - 1, (0, 0), (10, 0)),
            (entry + fillers, (0, 0), (0, 2)),
        ] {
            let mut device = Device::of(Some(set), 1, 1, 3, seal_memory);
            assert_eq!(device.append(1, b"a"), appended, "{set:?}");
            assert_eq!(device.close(), closed, "{set:?}");
        }
    }
}

/// Two phases, three chunks, N = 2: the longest data, a single byte, and two
/// fillers.
fn four_items(set: Set) -> Case {
    let most = set.data_limit;
    let items = [Some((2, 0, most)), Some((1, 0, 1)), None, None];
    Case::of(store_of(Some(set), 2, 3, 2), &[1, most], &items)
}

#[test]
fn refusals_5_and_13_of_the_audit() {
    for set in SETS {
        let case = four_items(set);
        let capacity = set.log_capacity;
        assert_eq!(case.audit(), (0, 4));
        for (length, expected) in [(capacity, 23), (capacity + 1, 5)] {
            let answer = case.changed(|case| case.log_lengths[0] = length);
            assert_eq!(answer, (expected, 0), "{set:?}");
        }
        let other = Set {
            log_capacity: if capacity == 65_536 { 65_535 } else { 65_536 },
            ..set
        };
        let other = store_of(Some(other), 2, 3, 2);
        let answer = case.changed(|case| case.auditor_store = other.clone());
        assert_eq!(answer, (13, 0), "{set:?}");
    }
}

/// The kind counts, though the set in effect is the same.
#[test]
fn refusal_13_between_the_kinds() {
    let kinds = [None, Some(Set::COMMON)];
    for device in kinds {
        for auditor in kinds {
            let mut case = Case::of(store_of(device, 1, 1, 1), &[1], &[Some((1, 0, 1))]);
            case.auditor_store = store_of(auditor, 1, 1, 1);
            let expected = if device == auditor { (0, 1) } else { (13, 0) };
            assert_eq!(case.audit(), expected);
        }
    }
}

#[test]
fn refusals_15_and_21() {
    for set in SETS {
        let case = four_items(set);
        let (entry, filler) = (set.entry_length(), set.filler_length());
        let ends = [entry, 2 * entry, 2 * entry + filler, 2 * (entry + filler)];
        for (number, end) in (0..).zip(ends) {
            let first = end - usize::from(set.tag_length);
            for index in [first, end - 1] {
                let answer = case.changed(|case| case.seal_file[index] ^= 1);
                assert_eq!(answer, (21, number), "{set:?}");
            }
            let answer = case.changed(|case| case.seal_file.truncate(end - 1));
            assert_eq!(answer, (15, number), "{set:?}");
        }
        let last = set.log_capacity as usize + set.data_limit as usize - 1;
        assert_eq!(case.changed(|case| case.log_memory[last] ^= 1), (21, 0));
    }
}

#[test]
fn refusal_18() {
    for set in SETS {
        // Where the log has room for one byte more than the longest data.
        let longer = set.data_limit + 1;
        let length = longer.min(set.log_capacity);
        let audit = |item| Case::of(store_of(Some(set), 1, 1, 1), &[length], &[Some(item)]).audit();
        assert_eq!(audit((1, 0, longer)), (18, 0), "{set:?}");
        assert_eq!(audit((1, length, 1)), (18, 0), "{set:?}");
        let covered = length == set.data_limit;
        let expected = if covered { (0, 1) } else { (23, 0) };
        assert_eq!(audit((1, 0, set.data_limit)), expected, "{set:?}");
    }
}

/// The longest data, then a byte in front of the covered end, at it, or behind.
#[test]
fn refusals_19_and_20() {
    for set in SETS {
        let most = set.data_limit;
        // The longest data may leave no room in the log.
        let length = (most + 2).min(set.log_capacity);
        for (offset, answer) in [(most - 1, (19, 1)), (most, (23, 0)), (most + 1, (20, 1))] {
            let items = [Some((1, 0, most)), Some((1, offset, 1))];
            let case = Case::of(store_of(Some(set), 1, 1, 2), &[length], &items);
            let expected = if offset < length { answer } else { (18, 1) };
            assert_eq!(case.audit(), expected, "{set:?}, offset {offset}");
        }
    }
}
