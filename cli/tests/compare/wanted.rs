//! The number of bytes wanted of a tag: those that are refused, and random
//! ones with random keys and messages against the model.

use std::ops::Range;

use pahyndoi::{LENGTH_LIMIT, LONGEST_TAG, SHORTEST_TAG, hmac_sha256_raw, model};

use crate::guarded::guarded;
use crate::random::Random;
use crate::{BAD_TAG_LENGTH, TAG_LENGTHS, TOO_LONG, assert_unchanged, refuse_hmac_sha256};

const CASES: usize = 30_000;

/// The bytes that keys and messages are parts of.
const MEMORY_LENGTH: usize = LENGTH_LIMIT + 80;

/// The small ones, and some for each width of a number: cut to it they would be
/// taken for 16 to 32.
fn refused_lengths() -> Vec<usize> {
    let powers = (6..usize::BITS).map(|exponent| 1 << exponent);
    let small = (0..=15).chain(33..=300);
    small
        .chain(powers.flat_map(|power| power - 1..=power + 33))
        .chain(usize::MAX - 33..=usize::MAX)
        .collect()
}

#[test]
fn least_and_most_are_those_of_the_rust_constants() {
    assert_eq!(SHORTEST_TAG..=LONGEST_TAG, TAG_LENGTHS);
}

#[test]
fn all_other_lengths_are_refused() {
    let bytes = Random::new().bytes(200);
    let before = bytes.clone();
    for (key_length, message_length) in [(0, 0), (32, 34), (64, 55), (65, 56), (131, 200)] {
        let (key, message) = (&bytes[..key_length], &bytes[..message_length]);
        for wanted in refused_lengths() {
            refuse_hmac_sha256(BAD_TAG_LENGTH, key, message, wanted);
            assert_unchanged(&bytes, &before);
        }
    }
}

/// Neither key nor message is too long: 26 alone holds.
#[test]
fn lengths_are_refused_at_the_limit_of_key_and_message() {
    let bytes = Random::new().bytes(LENGTH_LIMIT);
    let before = bytes.clone();
    for wanted in [0, 1, 15, 33, 64, 1 << 31, usize::MAX] {
        for (key, message) in [
            (&bytes[..], &bytes[..34]),
            (&bytes[..32], &bytes[..]),
            (&bytes[..], &bytes[..]),
        ] {
            refuse_hmac_sha256(BAD_TAG_LENGTH, key, message, wanted);
        }
    }
    assert_unchanged(&bytes, &before);
}

/// Mostly short; one of eight is over the limit, and a few are as long as it is
/// or one or two bytes shorter.
fn random_part(random: &mut Random) -> Range<usize> {
    let length = match random.up_to(799) {
        0 => LENGTH_LIMIT - random.up_to(2),
        1..=100 => LENGTH_LIMIT + 1 + random.up_to(64),
        _ => random.up_to(300),
    };
    let start = random.up_to(MEMORY_LENGTH - length);
    start..start + length
}

/// Six of eight may be wanted, one is small, and one is among those refused.
fn random_length(random: &mut Random, refused: &[usize]) -> usize {
    match random.up_to(7) {
        0 => random.up_to(48),
        1 => refused[random.up_to(refused.len() - 1)],
        _ => random.up_to(16) + 16,
    }
}

/// The refusal of a call, 0 with none, and what it was handed.
struct Answered {
    refusal: u32,
    wanted: usize,
    key_length: usize,
    message_length: usize,
}

impl Answered {
    fn is_of_a_tag(&self) -> bool {
        TAG_LENGTHS.contains(&self.wanted)
    }

    fn too_long(&self) -> (bool, bool) {
        (
            self.key_length > LENGTH_LIMIT,
            self.message_length > LENGTH_LIMIT,
        )
    }

    fn is_at_the_limit(&self) -> bool {
        self.key_length == LENGTH_LIMIT || self.message_length == LENGTH_LIMIT
    }
}

struct Answers(Vec<Answered>);

impl Answers {
    fn count(&self, refusal: u32, is_meant: impl Fn(&Answered) -> bool) -> usize {
        let is_counted = |answer: &&Answered| answer.refusal == refusal && is_meant(answer);
        self.0.iter().filter(is_counted).count()
    }

    fn assert_frequent(
        &self,
        what: &str,
        least: usize,
        refusal: u32,
        is: impl Fn(&Answered) -> bool,
    ) {
        let count = self.count(refusal, is);
        println!("{what}: {count}");
        assert!(count > least, "{what}: {count} answers");
    }

    /// Fails where an answer, or one to some kind of call, is rare.
    fn assert_all_frequent(&self) {
        assert_eq!(self.count(0, |a| !a.is_of_a_tag()), 0, "done, not refused");
        self.assert_frequent("done", 15_000, 0, Answered::is_of_a_tag);
        self.assert_frequent("by 26", 4000, BAD_TAG_LENGTH, |a| !a.is_of_a_tag());
        self.assert_frequent("by 1", 4000, TOO_LONG, Answered::is_of_a_tag);
        self.assert_frequent("by 1 before 26", 1000, TOO_LONG, |a| !a.is_of_a_tag());
        for (by, too_long, least) in [
            ("key", (true, false), 2000),
            ("message", (false, true), 2000),
            ("both", (true, true), 250),
        ] {
            let is_so = |a: &Answered| a.too_long() == too_long;
            self.assert_frequent(&format!("by 1, {by} too long"), least, TOO_LONG, is_so);
        }
        self.assert_frequent("done at the limit", 5, 0, Answered::is_at_the_limit);
        for length in 0..=48 {
            let (refusal, least) = match TAG_LENGTHS.contains(&length) {
                true => (0, 900),
                false => (BAD_TAG_LENGTH, 30),
            };
            let what = format!("{length} wanted");
            self.assert_frequent(&what, least, refusal, |a| a.wanted == length);
        }
    }
}

#[test]
fn answers_are_those_of_the_model() {
    let mut random = Random::new();
    let bytes = random.bytes(MEMORY_LENGTH);
    let before = bytes.clone();
    let refused = refused_lengths();
    let mut answers = Answers(Vec::new());
    for case in 0..CASES {
        let (key, message) = (random_part(&mut random), random_part(&mut random));
        let (lent_key, lent_message) = (&bytes[key.clone()], &bytes[message.clone()]);
        let (key, message) = (&before[key], &before[message]);
        let wanted = random_length(&mut random, &refused);
        let answer = guarded(random.up_to(15), |tag| {
            hmac_sha256_raw(lent_key, lent_message, wanted, tag)
        });
        let expected = model::hmac_sha256(model::plain_hmac, key, message, wanted);
        let lengths = (key.len(), message.len());
        assert_eq!(
            answer, expected,
            "case {case}, key and message of {lengths:?} bytes, {wanted} wanted"
        );
        assert_unchanged(lent_key, key);
        assert_unchanged(lent_message, message);
        answers.0.push(Answered {
            refusal: answer.0,
            wanted,
            key_length: key.len(),
            message_length: message.len(),
        });
    }
    answers.assert_all_frequent();
}
