//! The plan's call at its edges: each answer known beforehand.

#[path = "common/fence.rs"]
mod fence;
#[path = "planning/fenced.rs"]
mod fenced;

use fenced::Fenced;
use pahyndoi::{Refusal, least_ratchet, least_ratchet_raw};

const REFUSED: u64 = 25 << 32;

/// Fails where the call, handed these counts with a fence behind them, answers
/// another word, or its result does not say the same.
fn assert_answer(counts: &[u32], chunks: u32, expected: u64) {
    let fenced = Fenced::of(counts);
    let lent = fenced.last(counts.len());
    let answer = least_ratchet_raw(lent, chunks);
    assert_eq!(answer, expected, "{counts:?}, {chunks} chunks");
    assert!(lent == counts, "the counts changed");
    let result = match expected {
        REFUSED => Err(Refusal(25)),
        0 => Ok(None),
        ratchet => Ok(Some(ratchet as u32)),
    };
    assert_eq!(least_ratchet(counts, chunks), result);
}

/// With one chunk less the answer is another.
fn assert_just_met(counts: &[u32], chunks: u32, ratchet: u64, with_one_less: u64) {
    assert_answer(counts, chunks, ratchet);
    assert_answer(counts, chunks - 1, with_one_less);
}

#[test]
fn nothing_to_append_needs_1() {
    for chunks in [1, 2, 1023, 1024] {
        assert_answer(&[], chunks, 1);
        for length in [1, 2, 63, 64] {
            assert_answer(&vec![0; length], chunks, 1);
        }
    }
}

#[test]
fn number_of_counts() {
    for count in [0, 1, 16] {
        assert_answer(&[count; 63], 1024, 1);
        assert_answer(&[count; 64], 1024, 1);
        assert_answer(&[count; 65], 1024, REFUSED);
    }
    for length in [66, 127, 128, 129, 256, 320, 65_536, 65_537] {
        assert_answer(&vec![0; length], 1024, REFUSED);
    }
}

/// A length of 2^32 + 5 is not taken for 5, nor one of 2^30 for 0 bytes.
#[cfg(target_pointer_width = "64")]
#[test]
fn lengths_are_not_cut_to_32_bits() {
    let zeros = Fenced::zeros((1 << 32) + 5);
    for length in [1 << 30, (1 << 30) + 5, 1 << 32, (1 << 32) + 5] {
        assert_eq!(least_ratchet_raw(zeros.last(length), 1024), REFUSED);
    }
}

#[test]
fn size_of_a_count() {
    assert_answer(&[65_535], 1024, 64);
    assert_answer(&[65_536], 1024, 64);
    for count in [65_537, 65_536 + 256, 1 << 17, 1 << 31, u32::MAX] {
        assert_answer(&[count], 1024, REFUSED);
    }
}

/// At each place of lists of each length.
#[test]
fn place_of_a_count() {
    for length in 1..=64 {
        for place in 0..length {
            let mut counts = vec![0; length];
            counts[place] = 65_536;
            assert_just_met(&counts, 256, 256, 0);
            counts[place] = 65_537;
            assert_answer(&counts, 256, REFUSED);
        }
    }
}

#[test]
fn number_of_chunks() {
    for counts in [&[][..], &[0], &[1], &[1; 64], &[65_536; 64]] {
        for chunks in [0, 1025, 1 << 16, (1 << 16) + 1, 1 << 31, u32::MAX] {
            assert_answer(counts, chunks, REFUSED);
        }
    }
    assert_answer(&[256], 1, 256);
    assert_answer(&[257], 1, 0);
    assert_answer(&[1, 1], 1, 0);
    assert_answer(&[1024], 1024, 1);
    assert_answer(&[1025], 1024, 2);
}

#[test]
fn smallest_ratchet_just_met() {
    assert_just_met(&[16; 64], 1024, 1, 2);
    assert_just_met(&[1; 64], 64, 1, 0);
    assert_just_met(&[2; 64], 128, 1, 2);
    assert_just_met(&[1000, 0, 24], 1024, 1, 2);
}

#[test]
fn largest_ratchet_just_met() {
    assert_just_met(&[4096; 64], 1024, 256, 0);
    assert_just_met(&[65_536; 4], 1024, 256, 0);
    assert_just_met(&[256 * 7 + 1, 256, 255, 0], 10, 256, 0);
}

/// 2^22 entries, the most of a plan, take 16,384 chunks with a ratchet of 256.
#[test]
fn most_entries() {
    for chunks in [1, 1023, 1024] {
        assert_answer(&[65_536; 64], chunks, 0);
    }
}

/// A count of 256 times the ratchet, once in a list of four, for each ratchet:
/// it alone takes 256 chunks.
#[test]
fn every_ratchet_is_the_least_of_some_plan() {
    for ratchet in 2..=256 {
        let counts = [0, 256 * ratchet, 0, 0];
        assert_answer(&counts, 256, ratchet.into());
        let one_more = [0, 256 * ratchet, 0, 1];
        assert_answer(&one_more, 257, ratchet.into());
    }
}
