//! Restarts: what the call refuses and writes, and where the audit takes them.

use super::*;

/// One phase and three chunks, the first of them burned by so many appends.
/// The power is lost, and the device has opened again.
fn cut_device(ratchet: u32, appends: u32, seal_memory: usize) -> Device {
    let mut device = Device::new(1, 3, ratchet, seal_memory);
    for number in 0..appends {
        assert_eq!(device.append(1, b"a"), (0, number));
    }
    device.cut();
    assert_eq!(device.open(&[appends], 50 * u64::from(appends)), 0);
    device
}

/// What one restart writes, byte by byte.
#[test]
fn effect_of_restart() {
    let mut device = cut_device(3, 2, 200);
    let before = device.clone();
    let chunk = chunk(&before.material.store, 1);
    assert_eq!(device.restart(2), (0, 3));
    let head = [5, 1, 0, 0, 0, 0, 0, 0, 0, 2, 0, 0, 0];
    let tag = crate::plain::hmac_sha256(&chunk, &[&ID[..], &head].concat());
    let ratchet_message = [&ID[..], &[4, 1, 0, 0, 0, 3, 0, 0, 0]].concat();
    let mut expected = before;
    expected.material.store[50..82].fill(0);
    expected.material.seal_memory[100..113].copy_from_slice(&head);
    expected.material.seal_memory[113..145].copy_from_slice(&tag);
    expected.state = State {
        position: Position {
            chunk: 1,
            offset: 1,
        },
        held_key: crate::plain::hmac_sha256(&chunk, &ratchet_message),
        log_lengths: [2, 0, 0, 0, 0, 0, 0, 0],
        seal_length: 145,
    };
    assert!(device == expected);
    assert_eq!(device.append(1, b"b"), (0, 4));
}

#[test]
fn refusal_27_by_the_number() {
    for (ratchet, number, expected) in [
        (1, 0, 27),
        (1, 1, 27),
        (2, 0, 27),
        (2, 1, 0),
        (2, 2, 27),
        (3, 2, 0),
        (3, 3, 27),
        (256, 255, 0),
        (256, 256, 27),
        (256, u32::MAX, 27),
    ] {
        let answer = cut_device(ratchet, 1, 200).restart(number);
        let done = (0, ratchet);
        assert_eq!(answer, if expected == 0 { done } else { (expected, 0) });
    }
}

#[test]
fn refusal_27_by_the_offset() {
    let mut device = Device::new(1, 3, 3, 300);
    for number in 0..3 {
        assert_eq!(device.clone().restart(1), (27, 0));
        assert_eq!(device.append(1, b"a"), (0, number));
    }
    assert_eq!(device.restart(1), (0, 3));
}

/// No chunk is burned, and then one is, wherever it stands.
#[test]
fn refusal_27_by_the_store() {
    let mut device = Device::new(1, 3, 3, 300);
    assert_eq!(device.restart(1), (27, 0));
    device.material.store[82..].fill(0);
    assert_eq!(device.restart(1), (0, 0));
}

#[test]
fn refusals_2_3_and_6_before_27() {
    let right = cut_device(3, 1, 200);
    let of = |change: fn(&mut Device)| {
        let mut device = right.clone();
        change(&mut device);
        device.restart(0)
    };
    assert_eq!(of(|_| ()), (27, 0));
    assert_eq!(of(|device| device.material.store[0] = 2), (2, 0));
    assert_eq!(of(|device| device.material.store.push(1)), (2, 0));
    assert_eq!(of(|device| device.material.log_memory.push(1)), (3, 0));
    assert_eq!(of(|device| device.state = State::default()), (6, 0));
    assert_eq!(of(|device| device.state.position.chunk = 4), (6, 0));
    assert_eq!(of(|device| device.state.seal_length = 201), (6, 0));
    assert_eq!(of(|device| device.state.log_lengths[0] = 8193), (6, 0));
    assert_eq!(of(|device| device.state.log_lengths[1] = 1), (6, 0));
}

#[test]
fn refusals_10_and_11_behind_27() {
    for (free, expected) in [(45, (0, 3)), (44, (10, 0)), (0, (10, 0))] {
        let mut device = cut_device(3, 1, 50 + free);
        assert_eq!(device.clone().restart(3), (27, 0));
        assert_eq!(device.restart(1), expected, "{free} bytes free");
    }
    for (seal_memory, expected) in [(395, 11), (394, 10)] {
        let mut device = Device::new(1, 3, 3, seal_memory);
        for _ in 0..7 {
            assert_eq!(device.append(1, b"a").0, 0);
        }
        device.cut();
        assert_eq!(device.open(&[7], 350), 0);
        assert_eq!(device.clone().restart(0), (27, 0));
        assert_eq!(device.restart(1), (expected, 0));
    }
}

/// Tags of each length follow the set.
#[test]
fn restarts_of_sets() {
    for tag_length in [16, 31] {
        let set = Set {
            tag_length,
            ..Set::COMMON
        };
        let length = usize::from(tag_length) + 13;
        let entry = usize::from(tag_length) + 18;
        for (free, expected) in [(length, (0, 2)), (length - 1, (10, 0))] {
            let mut device = Device::of(Some(set), 1, 3, 2, entry + free);
            assert_eq!(device.append(1, b"a"), (0, 0));
            device.cut();
            assert_eq!(device.open(&[1], entry as u64), 0);
            assert_eq!(device.restart(1), expected);
        }
    }
}

/// An item of a seal file: a filler at its place, or a restart with its number.
#[derive(Clone, Copy, Debug)]
enum Wanted {
    Filler(u32, u32),
    Restart(u32, u32, u32),
}

use Wanted::{Filler, Restart};

/// The audit's answer on these items, each under the key of its own place, with
/// so many of four chunks burned. N is 3.
fn audit_of(burned: usize, wanted: &[Wanted]) -> (u32, u32) {
    let store = store(1, 4, 3);
    let header = Header::parse(&store).expect("a store");
    let mut seal_file = Vec::new();
    for item in wanted {
        let head = match *item {
            Filler(chunk, offset) => Head::Filler {
                position: Position { chunk, offset },
            },
            Restart(chunk, offset, number) => Head::Restart {
                position: Position { chunk, offset },
                number,
            },
        };
        let position = head.position();
        let first = if position.chunk < 4 {
            position.chunk
        } else {
            0
        };
        let offset = position.offset.min(2);
        let key = key_at(plain_hmac, chunk(&store, first), offset, &header);
        seal_file.extend(head.seal(&header, plain_hmac, &key, &[]).to_bytes());
    }
    let mut device_store = store.clone();
    device_store[18..18 + 32 * burned].fill(0);
    let presented = Presented {
        device_store: &device_store,
        auditor_store: &store,
        log_memory: &[0; LOG_CAPACITY],
        log_lengths: &[0],
        seal_file: &seal_file,
    };
    let answer = audit(plain_hmac, &presented);
    (answer.refusal, answer.number)
}

/// Behind one item, behind two, one behind the other, and last of all.
#[test]
fn restarts_are_taken_where_a_chunk_was_cut() {
    let behind_one = [Filler(0, 0), Restart(1, 0, 1), Filler(1, 1), Filler(1, 2)];
    assert_eq!(audit_of(2, &behind_one), (0, 4));
    let behind_two = [
        Filler(0, 0),
        Filler(0, 1),
        Restart(1, 0, 2),
        Filler(1, 1),
        Filler(1, 2),
    ];
    assert_eq!(audit_of(2, &behind_two), (0, 5));
    let in_a_row = [
        Filler(0, 0),
        Restart(1, 0, 1),
        Restart(2, 0, 1),
        Filler(2, 1),
        Restart(3, 0, 2),
        Filler(3, 1),
        Filler(3, 2),
    ];
    assert_eq!(audit_of(4, &in_a_row), (0, 7));
    for end in [1, 2, 3, 4, 5, 6] {
        assert_eq!(audit_of(4, &in_a_row[..end]), (22, 0), "{end} items");
    }
    assert_eq!(audit_of(3, &in_a_row), (16, 4));
}

#[test]
fn refusal_17_of_restarts() {
    for (restart, expected) in [
        (Restart(1, 0, 2), (22, 0)),
        (Restart(0, 0, 2), (17, 2)),
        (Restart(0, 2, 2), (17, 2)),
        (Restart(2, 0, 2), (17, 2)),
        (Restart(1, 1, 2), (17, 2)),
        (Restart(1, 0, 1), (17, 2)),
        (Restart(1, 0, 3), (17, 2)),
        (Restart(1, 0, 0), (17, 2)),
        (Restart(1, 0, 2 + (1 << 8)), (17, 2)),
        (Restart(1, 0, 2 + (1 << 24)), (17, 2)),
    ] {
        let items = [Filler(0, 0), Filler(0, 1), restart];
        assert_eq!(audit_of(3, &items), expected, "{restart:?}");
    }
}

/// Where offset 0 is due none may stand, at the front or behind a whole chunk.
#[test]
fn refusal_17_of_restarts_between_chunks() {
    for number in [0, 1, 2, 3] {
        for chunk in [0, 1] {
            assert_eq!(audit_of(3, &[Restart(chunk, 0, number)]), (17, 0));
        }
        for chunk in [0, 1, 2] {
            let restart = Restart(chunk, 0, number);
            let items = [Filler(0, 0), Filler(0, 1), Filler(0, 2), restart];
            assert_eq!(audit_of(3, &items), (17, 3));
        }
    }
}

/// The chunk of a restart, and the one behind the last burned.
#[test]
fn refusal_16_of_restarts() {
    let cut = [Filler(0, 0), Filler(0, 1), Restart(1, 0, 2)];
    for (burned, expected) in [(0, (16, 0)), (1, (16, 2)), (2, (22, 0))] {
        assert_eq!(audit_of(burned, &cut), expected);
    }
    // 16 comes before 17.
    for restart in [Restart(0, 0, 2), Restart(1, 0, 1), Restart(9, 9, 9)] {
        assert_eq!(audit_of(1, &[cut[0], cut[1], restart]), (16, 2));
        assert_eq!(audit_of(2, &[cut[0], cut[1], restart]), (17, 2));
    }
    let whole = [Filler(0, 0), Filler(0, 1), Filler(0, 2), Restart(1, 0, 1)];
    assert_eq!(audit_of(1, &whole), (16, 3));
    assert_eq!(audit_of(2, &whole), (17, 3));
}

/// Behind a restart the offset due is 1.
#[test]
fn items_behind_a_restart() {
    for (item, expected) in [
        (Filler(1, 1), (22, 0)),
        (Filler(1, 0), (17, 2)),
        (Filler(1, 2), (17, 2)),
        (Filler(0, 1), (17, 2)),
        (Filler(0, 2), (17, 2)),
        (Filler(2, 0), (17, 2)),
        (Restart(2, 0, 1), (22, 0)),
        (Restart(2, 0, 2), (17, 2)),
    ] {
        let items = [Filler(0, 0), Restart(1, 0, 1), item];
        assert_eq!(audit_of(4, &items), expected, "{item:?}");
    }
}

/// Where a chunk was cut, fillers may go on as well: who has the key may close.
#[test]
fn a_filler_where_a_restart_may_stand() {
    let items = [Filler(0, 0), Filler(0, 1), Filler(0, 2)];
    assert_eq!(audit_of(1, &items), (0, 3));
    assert_eq!(audit_of(2, &items), (22, 0));
    assert_eq!(audit_of(0, &[]), (0, 0));
    assert_eq!(audit_of(1, &[]), (22, 0));
}

/// Its tag is of its own place, and every byte of it counts.
#[test]
fn refusals_15_and_21_of_restarts() {
    let mut device = cut_device(2, 1, 200);
    let unused = store(1, 3, 2);
    assert_eq!(device.restart(1), (0, 2));
    assert_eq!(device.close(), (0, 1));
    let audit = |seal_file: &[u8]| {
        let presented = Presented {
            device_store: &device.material.store,
            auditor_store: &unused,
            log_memory: &device.material.log_memory,
            log_lengths: &[1],
            seal_file,
        };
        let answer = audit(plain_hmac, &presented);
        (answer.refusal, answer.number)
    };
    let seal_file = device.seal_file();
    assert_eq!(audit(seal_file), (0, 3));
    for (index, expected) in [(50, 15), (51, 17), (55, 17), (59, 17), (63, 21), (94, 21)] {
        let mut changed = seal_file.to_vec();
        changed[index] ^= 128;
        assert_eq!(audit(&changed), (expected, 1), "byte {index}");
    }
    for length in [51, 63, 94] {
        assert_eq!(audit(&seal_file[..length]), (15, 1));
    }
    assert_eq!(audit(&seal_file[..95]), (22, 0));
}

/// Who takes the device drops the items behind the first one of the last burned
/// chunk, and puts a restart behind it with the next.
#[test]
fn an_intruder_drops_items_behind_b() {
    let mut device = Device::new(1, 3, 3, 1000);
    let start = device.material.clone();
    let mut account = Account::start(&start).expect("unused");
    for data in [b"a", b"b", b"c", b"d", b"e"] {
        assert_eq!(device.append(1, data).0, 0);
        let (phase, data) = (1, data.to_vec());
        account.call(plain_hmac, &Call::Append { phase, data });
    }
    assert_eq!(account.safe_count(), 4);
    for kept in 1..5 {
        let mut compromised = device.clone();
        assert_eq!(compromised.open(&[kept], 50 * u64::from(kept)), 0);
        let number = if kept < 3 { kept } else { kept - 3 };
        if number == 0 {
            continue;
        }
        assert_eq!(compromised.restart(number), (0, 6));
        assert_eq!(compromised.close(), (0, 2));
        let presented = Presented {
            device_store: &compromised.material.store,
            auditor_store: &start.store,
            log_memory: &compromised.material.log_memory,
            log_lengths: &[kept],
            seal_file: compromised.seal_file(),
        };
        let answer = audit(plain_hmac, &presented);
        let (expected, of_first, of_all) = match kept {
            4 => ((0, 7), Outcome::Intact, Outcome::Dropped),
            _ => ((17, kept), Outcome::Refused, Outcome::Refused),
        };
        assert_eq!((answer.refusal, answer.number), expected, "{kept} kept");
        let outcomes = outcomes(plain_hmac, &account, &presented);
        assert_eq!(outcomes.of_first, [of_first]);
        assert_eq!(outcomes.of_all, [of_all]);
    }
}
