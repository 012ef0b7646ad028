//! The proved functions compared with libcrypto and with the plain Rust ones.

#[path = "common/guarded.rs"]
mod guarded;
#[path = "common/libcrypto.rs"]
mod libcrypto;
#[path = "common/random.rs"]
mod random;
#[path = "compare/wanted.rs"]
mod wanted;

use std::hint::black_box;
use std::ops::RangeInclusive;

use guarded::guarded;
use pahyndoi::{LENGTH_LIMIT, Refusal, hmac_sha256_raw, plain, sha256_raw};
use random::Random;

const TOO_LONG: u32 = 1;
const BAD_TAG_LENGTH: u32 = 26;

/// Every number of bytes of a tag that may be wanted.
const TAG_LENGTHS: RangeInclusive<usize> = 16..=32;

/// Some of them, where the message or the key is long.
const SOME_TAG_LENGTHS: [usize; 3] = [16, 25, 32];

/// Lengths around the ends of blocks and of their padding.
const EDGE_LENGTHS: [usize; 18] = [
    0, 1, 31, 32, 33, 55, 56, 63, 64, 65, 119, 120, 127, 128, 129, 191, 192, 1000,
];

/// Lengths over the limit.
const LONG_LENGTHS: [usize; 6] = [
    LENGTH_LIMIT + 1,
    LENGTH_LIMIT + 2,
    LENGTH_LIMIT + 63,
    LENGTH_LIMIT + 64,
    LENGTH_LIMIT + 65,
    2 * LENGTH_LIMIT,
];

fn assert_unchanged(input: &[u8], before: &[u8]) {
    assert!(black_box(input) == before, "the input changed");
}

fn compare_sha256_at(offset: usize, message: &[u8]) {
    let before = message.to_vec();
    let answer = guarded(offset, |digest| sha256_raw(message, digest));
    let length = message.len();
    assert_eq!(answer, (0, plain::sha256(&before)), "plain, {length} bytes");
    assert_eq!(
        answer.1,
        libcrypto::sha256(&before),
        "libcrypto, {length} bytes"
    );
    assert_unchanged(message, &before);
}

fn compare_sha256(message: &[u8]) {
    compare_sha256_at(0, message);
}

/// The tag's bytes from the front, as many as wanted, and zeros behind them.
fn front(tag: &[u8; 32], wanted: usize) -> [u8; 32] {
    std::array::from_fn(|index| if index < wanted { tag[index] } else { 0 })
}

/// Each of these numbers of bytes wanted, the tag written at a shifted address.
fn compare_hmac_sha256_at(
    offset: usize,
    key: &[u8],
    message: &[u8],
    tag_lengths: impl IntoIterator<Item = usize>,
) {
    let before = (key.to_vec(), message.to_vec());
    let by_plain_rust = plain::hmac_sha256(&before.0, &before.1);
    let by_libcrypto = libcrypto::hmac_sha256(&before.0, &before.1);
    let lengths = (key.len(), message.len());
    for wanted in tag_lengths {
        let answer = guarded(offset, |tag| hmac_sha256_raw(key, message, wanted, tag));
        assert_eq!(
            answer,
            (0, front(&by_plain_rust, wanted)),
            "plain, key and message of {lengths:?} bytes, {wanted} wanted"
        );
        assert_eq!(
            answer.1,
            front(&by_libcrypto, wanted),
            "libcrypto, key and message of {lengths:?} bytes, {wanted} wanted"
        );
        assert_unchanged(key, &before.0);
        assert_unchanged(message, &before.1);
    }
}

fn compare_hmac_sha256(key: &[u8], message: &[u8]) {
    compare_hmac_sha256_at(0, key, message, TAG_LENGTHS);
}

fn compare_long_hmac_sha256(key: &[u8], message: &[u8]) {
    compare_hmac_sha256_at(0, key, message, SOME_TAG_LENGTHS);
}

fn refuse_sha256(message: &[u8]) {
    let answer = guarded(0, |digest| sha256_raw(message, digest));
    assert_eq!(answer, (TOO_LONG, [0; 32]), "{} bytes", message.len());
    assert_eq!(pahyndoi::sha256(message), Err(Refusal(TOO_LONG)));
}

fn refuse_hmac_sha256(refusal: u32, key: &[u8], message: &[u8], wanted: usize) {
    let answer = guarded(0, |tag| hmac_sha256_raw(key, message, wanted, tag));
    assert_eq!(
        answer,
        (refusal, [0; 32]),
        "{} and {} bytes, {wanted} wanted",
        key.len(),
        message.len()
    );
    let result = pahyndoi::hmac_sha256(key, message, wanted);
    assert_eq!(result, Err(Refusal(refusal)));
}

/// Refused by 1 whatever is wanted, whether that would be refused or not.
fn refuse_long_hmac_sha256(key: &[u8], message: &[u8]) {
    for wanted in [0, 15, 16, 24, 32, 33, usize::MAX] {
        refuse_hmac_sha256(TOO_LONG, key, message, wanted);
    }
}

#[test]
fn sha256_of_every_short_length() {
    let mut random = Random::new();
    for length in 0..=300 {
        compare_sha256(&random.bytes(length));
        compare_sha256(&vec![0; length]);
        compare_sha256(&vec![0xff; length]);
    }
}

#[test]
fn sha256_of_random_lengths() {
    let mut random = Random::new();
    for _ in 0..48 {
        let length = random.up_to(LENGTH_LIMIT);
        compare_sha256(&random.bytes(length));
    }
}

#[test]
fn sha256_near_the_limit() {
    let bytes = Random::new().bytes(LENGTH_LIMIT);
    for less in [0, 1, 8, 9, 63, 64, 65] {
        compare_sha256(&bytes[less..]);
    }
}

#[test]
fn sha256_over_the_limit() {
    let bytes = Random::new().bytes(2 * LENGTH_LIMIT);
    for length in LONG_LENGTHS {
        refuse_sha256(&bytes[..length]);
    }
}

#[test]
fn sha256_unaligned() {
    let bytes = Random::new().bytes(400);
    for offset in 0..16 {
        for length in EDGE_LENGTHS.into_iter().filter(|length| *length < 300) {
            compare_sha256(&bytes[offset..offset + length]);
            compare_sha256_at(offset, &bytes[..length]);
        }
    }
}

#[test]
fn hmac_sha256_of_every_short_key() {
    let mut random = Random::new();
    for key_length in 0..=200 {
        for message_length in EDGE_LENGTHS {
            let key = random.bytes(key_length);
            compare_hmac_sha256(&key, &random.bytes(message_length));
        }
    }
}

#[test]
fn hmac_sha256_of_every_short_message() {
    let mut random = Random::new();
    for message_length in 0..=300 {
        for key_length in [0, 16, 32, 63, 64, 65, 131] {
            let key = random.bytes(key_length);
            compare_hmac_sha256(&key, &random.bytes(message_length));
        }
    }
}

#[test]
fn hmac_sha256_of_random_lengths() {
    let mut random = Random::new();
    for _ in 0..32 {
        let key_length = random.up_to(LENGTH_LIMIT);
        let message_length = random.up_to(LENGTH_LIMIT);
        let key = random.bytes(key_length);
        compare_long_hmac_sha256(&key, &random.bytes(message_length));
    }
}

#[test]
fn hmac_sha256_near_the_limit() {
    let bytes = Random::new().bytes(LENGTH_LIMIT + 16);
    let (full, other_full) = (&bytes[..LENGTH_LIMIT], &bytes[16..]);
    compare_long_hmac_sha256(&bytes[..32], full);
    compare_long_hmac_sha256(full, &bytes[..34]);
    compare_long_hmac_sha256(full, other_full);
    for less in [1, 8, 9, 63, 64, 65] {
        compare_long_hmac_sha256(&bytes[..32], &full[less..]);
        compare_long_hmac_sha256(&full[less..], &bytes[..34]);
    }
}

#[test]
fn hmac_sha256_over_the_limit() {
    let bytes = Random::new().bytes(2 * LENGTH_LIMIT);
    for length in LONG_LENGTHS {
        let long = &bytes[..length];
        for short in [&bytes[..0], &bytes[..32], &bytes[..LENGTH_LIMIT]] {
            refuse_long_hmac_sha256(short, long);
            refuse_long_hmac_sha256(long, short);
        }
        refuse_long_hmac_sha256(long, long);
    }
}

#[test]
fn hmac_sha256_unaligned() {
    let bytes = Random::new().bytes(400);
    for offset in 0..16 {
        for length in EDGE_LENGTHS.into_iter().filter(|length| *length < 300) {
            let shifted = &bytes[offset..offset + length];
            compare_hmac_sha256(shifted, &bytes[..64]);
            compare_hmac_sha256(&bytes[..32], shifted);
            compare_hmac_sha256_at(offset, &bytes[..32], &bytes[..length], TAG_LENGTHS);
        }
    }
}

/// A length of 2^32 + 5 is not taken for 5. The zeros are never touched, so
/// they take no memory.
#[cfg(target_pointer_width = "64")]
#[test]
fn lengths_are_not_cut_to_32_bits() {
    let long = vec![0; (1 << 32) + 5];
    refuse_sha256(&long);
    refuse_long_hmac_sha256(&long, b"message");
    refuse_long_hmac_sha256(b"key", &long);
}

/// Key and message may be the same bytes.
#[test]
fn hmac_sha256_of_the_key_itself() {
    let bytes = Random::new().bytes(300);
    for length in 0..=300 {
        compare_hmac_sha256(&bytes[..length], &bytes[..length]);
    }
}
