//! The tag's call: tags whole and cut, and its refusals at their two sides.

use super::*;

const LIMIT: usize = 1_048_576;
const REFUSED_BY_1: (u32, [u8; 32]) = (1, [0; 32]);
const REFUSED_BY_26: (u32, [u8; 32]) = (26, [0; 32]);

/// In HMAC's place: every byte says its place, counted from 1.
fn numbered(_: &[u8], _: &[&[u8]]) -> [u8; HMAC_LENGTH] {
    std::array::from_fn(|index| index as u8 + 1)
}

#[test]
fn bytes_from_the_front() {
    for wanted in 16..=32 {
        let expected = std::array::from_fn(|index| match index < wanted {
            true => index as u8 + 1,
            false => 0,
        });
        let answer = hmac_sha256(numbered, b"key", b"message", wanted);
        assert_eq!(answer, (0, expected), "{wanted} wanted");
    }
}

/// RFC 4231, test case 5: the RFC gives 128 bits.
#[test]
fn tag_of_128_bits() {
    let mut expected = [0; 32];
    expected[..16].copy_from_slice(&[
        0xa3, 0xb6, 0x16, 0x74, 0x73, 0x10, 0x0e, 0xe0, 0x6e, 0x0c, 0x79, 0x6c, 0x29, 0x55, 0x55,
        0x2b,
    ]);
    let answer = hmac_sha256(plain_hmac, &[0x0c; 20], b"Test With Truncation", 16);
    assert_eq!(answer, (0, expected));
}

#[test]
fn tags_of_items_are_cut_and_keys_are_whole() {
    let whole = numbered(&[], &[]);
    for tag_length in 16..=32 {
        let set = Set {
            tag_length,
            ..Set::COMMON
        };
        let header = Header::parse(&store_of(Some(set), 1, 1, 2)).expect("a store");
        let position = Position::default();
        let item = Head::Filler { position }.seal(&header, numbered, b"key", &[]);
        assert_eq!(item.tag, whole[..usize::from(tag_length)]);
        assert_eq!(next_key(numbered, b"key", 1, &header), whole);
    }
}

#[test]
fn refusal_1() {
    let bytes = vec![7; LIMIT + 1];
    for (key_length, message_length, refusal) in [
        (LIMIT, LIMIT, 0),
        (LIMIT + 1, 0, 1),
        (0, LIMIT + 1, 1),
        (LIMIT + 1, LIMIT + 1, 1),
    ] {
        let (key, message) = (&bytes[..key_length], &bytes[..message_length]);
        let answer = hmac_sha256(numbered, key, message, 32);
        assert_eq!(answer.0, refusal, "{key_length} and {message_length} bytes");
        assert!(refusal == 0 || answer == REFUSED_BY_1);
    }
}

#[test]
fn refusal_26() {
    for wanted in (0..16).chain(33..300).chain([1 << 31, usize::MAX]) {
        let answer = hmac_sha256(numbered, b"key", b"message", wanted);
        assert_eq!(answer, REFUSED_BY_26, "{wanted} wanted");
    }
}

#[test]
fn refusal_1_comes_before_26() {
    let bytes = vec![7; LIMIT + 1];
    for wanted in [0, 15, 33, usize::MAX] {
        let refused = |key, message| hmac_sha256(numbered, key, message, wanted);
        assert_eq!(refused(&bytes, b"message"), REFUSED_BY_1);
        assert_eq!(refused(b"key", &bytes), REFUSED_BY_1);
        assert_eq!(refused(&bytes[1..], &bytes[1..]), REFUSED_BY_26);
    }
}
