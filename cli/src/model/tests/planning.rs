//! The least ratchet of a plan, and its refusal at its two sides.

use super::*;

/// Refusal and ratchet.
fn plan(counts: &[u32], chunks: u32) -> (u32, u32) {
    let Answer { refusal, number } = least_ratchet(counts, chunks);
    (refusal, number)
}

#[test]
fn every_close_takes_whole_chunks() {
    assert_eq!(chunks_needed(&[], 3), 0);
    assert_eq!(chunks_needed(&[0, 0], 3), 0);
    assert_eq!(chunks_needed(&[1, 2, 3], 3), 3);
    assert_eq!(chunks_needed(&[4, 6, 7], 3), 7);
    assert_eq!(chunks_needed(&[65_536; 64], 1), 1 << 22);
}

/// 5 and 7 take 12, 7, 5, 4, 3, 3 and 2 chunks with a ratchet of 1 to 7.
#[test]
fn least_of_those_that_last() {
    let of = |chunks| plan(&[5, 7], chunks);
    assert_eq!([12, 13, 1024].map(of), [(0, 1); 3]);
    assert_eq!([7, 11].map(of), [(0, 2); 2]);
    assert_eq!([5, 6].map(of), [(0, 3); 2]);
    assert_eq!([4, 3, 2].map(of), [(0, 4), (0, 5), (0, 7)]);
    assert_eq!(of(1), (0, 0));
}

#[test]
fn nothing_to_append_needs_1() {
    for counts in [&[][..], &[0], &[0; 64]] {
        assert_eq!(plan(counts, 1), (0, 1));
    }
}

#[test]
fn largest_ratchet() {
    assert_eq!(plan(&[65_536], 256), (0, 256));
    assert_eq!(plan(&[65_536], 255), (0, 0));
    assert_eq!(plan(&[4096; 64], 1024), (0, 256));
    assert_eq!(plan(&[4096; 64], 1023), (0, 0));
    assert_eq!(plan(&[256], 1), (0, 256));
    assert_eq!(plan(&[257], 1), (0, 0));
}

#[test]
fn refusal_25() {
    assert_eq!(plan(&[1; 64], 64), (0, 1));
    assert_eq!(plan(&[1; 65], 64), (25, 0));
    assert_eq!(plan(&[65_536], 1024), (0, 64));
    for count in [65_537, 1 << 31, u32::MAX] {
        assert_eq!(plan(&[count], 1024), (25, 0));
        assert_eq!(plan(&[0, count, 0], 1024), (25, 0));
    }
    for chunks in [0, 1025, u32::MAX] {
        assert_eq!(plan(&[], chunks), (25, 0));
    }
}
