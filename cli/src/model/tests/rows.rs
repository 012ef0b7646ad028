//! The small cases of `docs/FORMAT.md`, 11, but those of the hash.

use super::*;

const ITEM_7: Position = Position {
    chunk: 2,
    offset: 1,
};
const ITEM_8: Position = Position {
    chunk: 2,
    offset: 2,
};

/// The head's bytes, and items with tags of each length read back from their
/// bytes.
fn assert_head(head: Head, bytes: &[u8]) {
    assert_eq!(head.to_bytes(), bytes);
    for tag_length in 16..=32 {
        let set = Set {
            tag_length,
            ..Set::COMMON
        };
        let tag = vec![0xaa; usize::from(tag_length)];
        let item = Item { head, tag };
        let whole = item.to_bytes();
        assert_eq!(whole, [bytes, &item.tag].concat());
        assert_eq!(whole.len(), item.byte_count());
        assert_eq!(Item::parse(set, &whole[1..]), None);
        assert_eq!(Item::parse(set, &whole[..whole.len() - 1]), None);
        assert_eq!(Item::parse(set, &[&whole[..], &[7]].concat()), Some(item));
    }
}

#[test]
fn position_of_item_7() {
    assert_eq!(position(7, 3), ITEM_7);
    assert_eq!(ITEM_7.key_number(3), 7);
    assert_eq!(ITEM_7.next(3), ITEM_8);
    assert_eq!(
        ITEM_8.next(3),
        Position {
            chunk: 3,
            offset: 0
        }
    );
    assert_eq!(ITEM_7.next_chunk(), ITEM_8.next(3));
}

#[test]
fn bytes_of_an_entry() {
    let head = Head::Entry {
        phase: 2,
        offset: 5,
        length: 3,
        position: ITEM_7,
    };
    let bytes = [2, 2, 5, 0, 0, 0, 3, 0, 0, 0, 2, 0, 0, 0, 1, 0, 0, 0];
    assert_head(head, &bytes);
}

#[test]
fn bytes_of_a_filler() {
    let head = Head::Filler { position: ITEM_8 };
    assert_head(head, &[3, 2, 0, 0, 0, 2, 0, 0, 0]);
}

/// Behind a chunk that was cut with two items.
const RESTART: Head = Head::Restart {
    position: Position {
        chunk: 7,
        offset: 0,
    },
    number: 2,
};

#[test]
fn bytes_of_a_restart() {
    assert_head(RESTART, &[5, 7, 0, 0, 0, 0, 0, 0, 0, 2, 0, 0, 0]);
}

/// An id of zeros, and another.
const IDS: [[u8; 8]; 2] = [[0; 8], [0xc1, 0, 0, 0xa7, 2, 4, 0, 0xff]];

/// That of a store with three keys from each chunk.
fn header_of(id: [u8; 8]) -> Header {
    let header = Header::parse(&store(1, 1, 3)).expect("a store");
    Header { id, ..header }
}

#[test]
fn bytes_of_a_ratchet_message() {
    let head = [4, 1, 0, 0, 0, 3, 0, 0, 0];
    assert_eq!(ratchet_head(1, 3), head);
    for id in IDS {
        let whole = header_of(id).message(&head, &[]).concat();
        assert_eq!(whole, [&id[..], &head].concat());
        assert_eq!(whole.len(), 17);
    }
}

/// The head behind the id, and the data behind the head.
#[test]
fn tags_of_items() {
    let entry = Head::Entry {
        phase: 2,
        offset: 5,
        length: 3,
        position: ITEM_7,
    };
    let filler = Head::Filler { position: ITEM_8 };
    let messages: [(Head, &[u8], &[u8]); 3] = [
        (
            entry,
            b"abc",
            b"\x02\x02\x05\0\0\0\x03\0\0\0\x02\0\0\0\x01\0\0\0abc",
        ),
        (filler, b"", b"\x03\x02\0\0\0\x02\0\0\0"),
        (RESTART, b"", b"\x05\x07\0\0\0\0\0\0\0\x02\0\0\0"),
    ];
    let key = [7; KEY_LENGTH];
    for id in IDS {
        for (head, data, behind_id) in messages {
            let message = [&id[..], behind_id].concat();
            let item = head.seal(&header_of(id), plain_hmac, &key, data);
            assert_eq!(item.head, head);
            assert_eq!(item.tag, crate::plain::hmac_sha256(&key, &message));
        }
    }
}

#[test]
fn keys_of_a_chunk() {
    let chunk = [7; KEY_LENGTH];
    for id in IDS {
        let step = |key: &[u8; KEY_LENGTH], offset: u8| {
            let message = [&id[..], &[4, offset, 0, 0, 0, 3, 0, 0, 0]].concat();
            crate::plain::hmac_sha256(key, &message)
        };
        let second = step(&chunk, 1);
        let third = step(&second, 2);
        let keys = [0, 1, 2].map(|offset| key_at(plain_hmac, chunk, offset, &header_of(id)));
        assert_eq!(keys, [chunk, second, third]);
    }
}

/// A chunk is the first key of each store that has it; the keys above it are
/// of one store.
#[test]
fn keys_of_one_chunk_under_two_ids() {
    let chunk = [7; KEY_LENGTH];
    let keys = |offset| IDS.map(|id| key_at(plain_hmac, chunk, offset, &header_of(id)));
    assert_eq!(keys(0), [chunk; 2]);
    for offset in [1, 2] {
        let [one, other] = keys(offset);
        assert_ne!(one, other);
    }
}

#[test]
fn length_of_a_store_of_one_chunk() {
    let store = store(1, 1, 1);
    assert_eq!(store.len(), 50);
    assert!(Header::parse(&store).is_some());
    assert!(Header::parse(&store[..49]).is_none());
}

#[test]
fn second_append_with_one_key() {
    let mut device = Device::new(1, 1, 1, 1000);
    assert_eq!(device.append(1, b"a"), (0, 0));
    assert_eq!(device.append(1, b"b"), (11, 0));
}

#[test]
fn close_at_offset_2_and_at_offset_0() {
    let mut device = Device::new(1, 2, 3, 1000);
    assert_eq!(device.close(), (0, 0));
    assert_eq!(device.append(1, b"a"), (0, 0));
    assert_eq!(device.append(1, b"b"), (0, 1));
    assert_eq!(device.close(), (0, 1));
    assert_eq!(device.seal_file()[100..].len(), FILLER_LENGTH);
    assert_eq!(device.close(), (0, 0));
    assert_eq!(device.append(1, b"c"), (0, 3));
}
