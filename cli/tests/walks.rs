//! The comparison and the zero test of the crate `bytes`, eight bytes at a
//! step and by single bytes, against plain Rust.

#[path = "common/random.rs"]
mod random;

use random::Random;

/// The longest part that is tried.
const LONGEST: usize = 1025;

/// Where parts start, counted from a multiple of eight.
const STARTS: [usize; 4] = [0, 1, 2, 7];

/// The lowest and the highest bit of a byte.
const BITS: [u8; 2] = [0x01, 0x80];

/// What stands around the parts: it differs from one memory to the other and
/// is not zero, so that an answer shows a byte read outside its part.
const AROUND: [u8; 2] = [0x55, 0xaa];
const AROUND_LENGTH: usize = 16;
const MEMORY_LENGTH: usize = AROUND_LENGTH + 8 + LONGEST + AROUND_LENGTH;

/// A part with other bytes around it, at a place that is known.
#[repr(C, align(8))]
struct Memory {
    bytes: [u8; MEMORY_LENGTH],
    start: usize,
    end: usize,
}

impl Memory {
    fn new(around: u8, start: usize, part: &[u8]) -> Memory {
        let start = AROUND_LENGTH + start;
        let mut memory = Memory {
            bytes: [around; MEMORY_LENGTH],
            start,
            end: start + part.len(),
        };
        memory.part_mut().copy_from_slice(part);
        memory
    }

    fn part(&self) -> &[u8] {
        &self.bytes[self.start..self.end]
    }

    fn part_mut(&mut self) -> &mut [u8] {
        &mut self.bytes[self.start..self.end]
    }
}

/// Bytes that are compared before the answer is looked at.
const TOGETHER: usize = 384;

/// Every short length, and those around the longer ones of the format and
/// around what is compared together.
fn lengths() -> impl Iterator<Item = usize> {
    (0..=80).chain(
        [256, TOGETHER, TOGETHER + 8, 512, 2 * TOGETHER, 1024]
            .into_iter()
            .flat_map(around),
    )
}

fn around(length: usize) -> impl Iterator<Item = usize> {
    length - 1..=length + 1
}

fn message(length: usize) -> Vec<u8> {
    (0..length).map(|i| (i * 167 + 13) as u8).collect()
}

fn compare_same(a: &[u8], b: &[u8]) {
    let expected = a == b;
    let lengths = (a.len(), b.len());
    assert_eq!(timed::same(a, b), expected, "{lengths:?}");
    assert_eq!(timed::same_by_bytes(a, b), expected, "{lengths:?}");
}

fn compare_all_zero(bytes: &[u8]) {
    let expected = bytes.iter().all(|byte| *byte == 0);
    let length = bytes.len();
    assert_eq!(timed::all_zero(bytes), expected, "{length}");
    assert_eq!(timed::all_zero_by_bytes(bytes), expected, "{length}");
}

/// Tries the memory's part as it is and with each of its bytes altered alone.
fn with_each_byte_altered(memory: &mut Memory, compare: impl Fn(&[u8])) {
    compare(memory.part());
    for place in 0..memory.part().len() {
        for bit in BITS {
            memory.part_mut()[place] ^= bit;
            compare(memory.part());
            memory.part_mut()[place] ^= bit;
        }
    }
}

#[test]
fn one_differing_byte_is_seen_at_every_place() {
    for length in lengths() {
        let message = message(length);
        for (first, second) in STARTS.iter().flat_map(|a| STARTS.map(|b| (*a, b))) {
            let a = Memory::new(AROUND[0], first, &message);
            let mut b = Memory::new(AROUND[1], second, &message);
            assert!(timed::same(a.part(), b.part()));
            with_each_byte_altered(&mut b, |part| compare_same(a.part(), part));
        }
    }
}

#[test]
fn one_byte_that_is_not_zero_is_seen_at_every_place() {
    for length in lengths() {
        for start in STARTS {
            let mut zeros = Memory::new(AROUND[0], start, &vec![0; length]);
            assert!(timed::all_zero(zeros.part()));
            with_each_byte_altered(&mut zeros, compare_all_zero);
        }
    }
}

/// One is the other's front, and in memory the shorter one goes on as the
/// longer one does.
#[test]
fn parts_of_unequal_lengths_differ() {
    let message = message(LONGEST);
    let short = (0..=20).flat_map(|a| (0..=20).map(move |b| (a, b)));
    let long = around(TOGETHER).flat_map(|a| around(TOGETHER).map(move |b| (a, b)));
    for (first, second) in short.chain(long) {
        for start in STARTS {
            let a = Memory::new(AROUND[0], start, &message);
            let b = Memory::new(AROUND[0], 0, &message);
            compare_same(&a.part()[..first], &b.part()[..second]);
        }
    }
}

/// Parts that differ in none to three bytes, and sparse ones.
#[test]
fn random_parts() {
    let mut random = Random::new();
    for _ in 0..4000 {
        let length = random.up_to(LONGEST);
        let (first, second) = (random.up_to(7), random.up_to(7));
        let message = random.bytes(length);
        let a = Memory::new(AROUND[0], first, &message);
        let mut b = Memory::new(AROUND[1], second, &message);
        let mut sparse = Memory::new(AROUND[0], second, &vec![0; length]);
        for _ in 0..random.up_to(3).min(length) {
            let place = random.up_to(length - 1);
            let change = random.up_to(255) as u8;
            b.part_mut()[place] ^= change;
            sparse.part_mut()[place] ^= change;
        }
        compare_same(a.part(), b.part());
        compare_all_zero(sparse.part());
    }
}
