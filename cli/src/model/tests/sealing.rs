//! Each refusal of open, append and close at its two sides.

use super::*;

/// The refusals of open, append and close, each on a copy.
pub(super) fn refusals(device: &Device) -> [u32; 3] {
    let phases = device.material.store.get(9).copied().unwrap_or(0);
    [
        device.clone().open(&vec![0; usize::from(phases)], 0),
        device.clone().append(1, b"a").0,
        device.clone().close().0,
    ]
}

pub(super) fn with_store_byte(device: &Device, index: usize, value: u8) -> Device {
    let mut device = device.clone();
    device.material.store[index] = value;
    device
}

fn with_state(device: &Device, change: impl Fn(&mut State)) -> Device {
    let mut device = device.clone();
    change(&mut device.state);
    device
}

#[test]
fn refusal_2_by_the_header() {
    let ends = [(1, 1, 1), (8, 1, 1), (1, 1024, 1), (1, 1, 256)];
    for (phases, chunk_count, ratchet) in ends {
        let device = Device::new(phases, chunk_count, ratchet, 20_000);
        assert_eq!(refusals(&device), [0; 3]);
    }
    let beyond = [
        (0, 1, 1),
        (9, 1, 1),
        (1, 0, 1),
        (1, 1025, 1),
        (1, 1, 0),
        (1, 1, 257),
    ];
    for (phases, chunk_count, ratchet) in beyond {
        let device = Device::new(phases, chunk_count, ratchet, 20_000);
        assert_eq!(refusals(&device), [2; 3]);
    }
    let device = Device::new(1, 1, 1, 100);
    assert_eq!(refusals(&with_store_byte(&device, 0, 0)), [2; 3]);
    assert_eq!(refusals(&with_store_byte(&device, 0, 2)), [2; 3]);
}

#[test]
fn refusal_2_by_the_length() {
    let right = Device::new(1, 2, 1, 100);
    for length in [0, 17, 18, 50, 81, 82, 83, 114] {
        let mut device = right.clone();
        device.material.store.resize(length, 9);
        let expected = if length == 82 { 0 } else { 2 };
        assert_eq!(refusals(&device), [expected; 3], "{length} bytes");
    }
}

#[test]
fn refusal_3() {
    for (phases, length, expected) in [
        (1, 8191, 3),
        (1, 8192, 0),
        (1, 8193, 3),
        (2, 8192, 3),
        (2, 16_384, 0),
    ] {
        let mut device = Device::new(phases, 1, 1, 100);
        device.material.log_memory.resize(length, 0);
        assert_eq!(refusals(&device), [expected; 3], "{length} bytes");
    }
}

#[test]
fn refusal_4() {
    for (burned, expected) in [
        ([false, false, false], (0, 0)),
        ([true, false, false], (0, 1)),
        ([true, true, true], (0, 3)),
        ([false, true, true], (4, 0)),
        ([true, false, true], (4, 0)),
        ([false, false, true], (4, 0)),
    ] {
        let mut device = Device::new(1, 3, 1, 100);
        for number in (0..3).filter(|number| burned[*number]) {
            device.material.store[18 + 32 * number..50 + 32 * number].fill(0);
        }
        let refusal = device.open(&[0], 0);
        assert_eq!((refusal, device.state.position.chunk), expected);
    }
}

#[test]
fn a_chunk_with_one_byte_left_is_not_burned() {
    let mut device = Device::new(1, 2, 1, 100);
    device.material.store[18..50].fill(0);
    for index in 18..50 {
        let mut device = with_store_byte(&device, index, 1);
        assert_eq!(device.open(&[0], 0), 0);
        assert_eq!(device.state.position.chunk, 0);
    }
}

#[test]
fn refusal_5() {
    let mut device = Device::new(2, 1, 1, 100);
    assert_eq!(device.open(&[8192, 8192], 0), 0);
    for lengths in [&[][..], &[0], &[0, 0, 0], &[8193, 0], &[0, 8193]] {
        assert_eq!(device.open(lengths, 0), 5, "{lengths:?}");
        assert_eq!(device.state, State::default());
    }
}

#[test]
fn refusal_6_at_opening() {
    let mut device = Device::new(2, 1, 1, 100);
    assert_eq!(device.open(&[3, 4], 100), 0);
    assert_eq!(device.state.log_lengths, [3, 4, 0, 0, 0, 0, 0, 0]);
    assert_eq!(device.state.seal_length, 100);
    for seal_length in [101, 1 << 32, u64::MAX] {
        assert_eq!(device.open(&[3, 4], seal_length), 6);
        assert_eq!(device.state, State::default());
    }
}

/// Refusals of append and close.
pub(super) fn of_state(device: &Device, change: impl Fn(&mut State)) -> [u32; 2] {
    let [_, append, close] = refusals(&with_state(device, change));
    [append, close]
}

#[test]
fn refusal_6_by_offset_and_chunk() {
    let mut device = Device::new(1, 2, 3, 1000);
    let unused = device.clone();
    assert_eq!(device.append(1, b"a"), (0, 0));
    for (chunk, offset, expected) in [
        (0, 0, [6, 6]),
        (0, 2, [0, 0]),
        (0, 3, [6, 6]),
        (0, u32::MAX, [6, 6]),
        (1, 0, [0, 0]),
        (1, 1, [6, 6]),
        (2, 0, [11, 0]),
        (2, 1, [6, 6]),
        (3, 0, [6, 6]),
        (u32::MAX, 0, [6, 6]),
    ] {
        let position = Position { chunk, offset };
        let refusals = of_state(&device, |state| state.position = position);
        assert_eq!(refusals, expected, "{position:?}");
    }
    assert_eq!(of_state(&unused, |state| state.position.offset = 1), [6; 2]);
}

#[test]
fn refusal_6_by_lengths() {
    let device = Device::new(2, 1, 3, 1000);
    for (index, length, expected) in [
        (1, 8192, 0),
        (1, 8193, 6),
        (0, 8193, 6),
        (2, 0, 0),
        (2, 1, 6),
        (7, 1, 6),
    ] {
        let refusals = of_state(&device, |state| state.log_lengths[index] = length);
        assert_eq!(refusals, [expected; 2], "phase {}", index + 1);
    }
    for (length, expected) in [
        (950, [0, 0]),
        (1000, [10, 0]),
        (1001, [6, 6]),
        (1 << 32, [6, 6]),
    ] {
        let refusals = of_state(&device, |state| state.seal_length = length);
        assert_eq!(refusals, expected, "seal length {length}");
    }
}

#[test]
fn refusal_7() {
    for phases in [1, 8] {
        let device = Device::new(phases, 1, 1, 100);
        for phase in [0, phases + 1, 255] {
            assert_eq!(device.clone().append(phase, b"a"), (7, 0));
        }
        assert_eq!(device.clone().append(1, b"a"), (0, 0));
        assert_eq!(device.clone().append(phases, b"a"), (0, 0));
    }
}

#[test]
fn refusal_8() {
    let device = Device::new(1, 1, 1, 100);
    for (length, expected) in [(0, 8), (1, 0), (512, 0), (513, 8)] {
        assert_eq!(device.clone().append(1, &vec![5; length]), (expected, 0));
    }
}

#[test]
fn refusal_9() {
    let mut device = Device::new(2, 1, 1, 100);
    assert_eq!(device.open(&[8190, 8192], 0), 0);
    for (phase, length, expected) in [(1, 2, 0), (1, 3, 9), (2, 1, 9)] {
        let answer = device.clone().append(phase, &vec![5; length]);
        assert_eq!(answer, (expected, 0));
    }
}

#[test]
fn refusal_10() {
    for (free, expected) in [(50, 0), (49, 10), (0, 10)] {
        assert_eq!(Device::new(1, 1, 1, free).append(1, b"a"), (expected, 0));
    }
    for (free, expected) in [(82, (0, 2)), (81, (10, 0))] {
        let mut device = Device::new(1, 1, 3, 50 + free);
        assert_eq!(device.append(1, b"a"), (0, 0));
        assert_eq!(device.close(), expected);
    }
}

#[test]
fn refusal_11() {
    let mut device = Device::new(1, 2, 2, 1000);
    for number in 0..4 {
        assert_eq!(device.append(1, b"a"), (0, number));
    }
    assert_eq!(device.append(1, b"a"), (11, 0));
    assert_eq!(device.close(), (0, 0));
}

/// What one append writes, byte by byte.
#[test]
fn effect_of_append() {
    let mut device = Device::new(2, 2, 2, 120);
    let unused = device.clone();
    let chunk = chunk(&unused.material.store, 0);
    assert_eq!(device.append(2, b"abc"), (0, 0));
    let head = [2, 2, 0, 0, 0, 0, 3, 0, 0, 0, 0, 0, 0, 0, 0, 0, 0, 0];
    let tag = crate::plain::hmac_sha256(&chunk, &[&ID[..], &head, b"abc"].concat());
    let ratchet_message = [&ID[..], &[4, 1, 0, 0, 0, 2, 0, 0, 0]].concat();
    let mut expected = unused;
    expected.material.store[18..50].fill(0);
    expected.material.log_memory[8192..8195].copy_from_slice(b"abc");
    expected.material.seal_memory[..18].copy_from_slice(&head);
    expected.material.seal_memory[18..50].copy_from_slice(&tag);
    expected.state = State {
        position: Position {
            chunk: 0,
            offset: 1,
        },
        held_key: crate::plain::hmac_sha256(&chunk, &ratchet_message),
        log_lengths: [0, 3, 0, 0, 0, 0, 0, 0],
        seal_length: 50,
    };
    assert!(device == expected);
    assert_eq!(device.append(1, b"d"), (0, 1));
    assert_eq!(
        device.state.position,
        Position {
            chunk: 1,
            offset: 0
        }
    );
    assert_eq!(device.state.held_key, [0; KEY_LENGTH]);
}
