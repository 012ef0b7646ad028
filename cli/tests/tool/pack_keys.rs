//! The key bytes that `pahyndoi pack` is given.

use std::fs;
use std::io::Write;
use std::process::Stdio;

use pahyndoi::{Material, Rejected, audit, hmac_sha256};

use crate::material::{Files, sealed, store};
use crate::pack::{arguments, folder, keys, pack};
use crate::run::{command, joined, run};

const CHUNK: usize = 32;
const WHY: &str = "with one not burned yet, what a burned one sealed could be forged";

/// Packs so many chunks, in a folder of the test's own, and is refused so.
fn assert_refused(name: &str, keys: &[u8], chunks: &str, reason: &str) {
    let folder = folder(name, keys);
    let error = pack(&folder, ("--chunks", chunks), &[]).failed();
    let path = folder.path("keys.bin");
    assert_eq!(error, format!("pahyndoi: {path}: {reason}\n"));
    assert!(!fs::exists(folder.path("auditor.store")).unwrap());
}

/// The bytes with these chunks replaced by one.
fn with(mut keys: Vec<u8>, numbers: &[usize], chunk: [u8; CHUNK]) -> Vec<u8> {
    for number in numbers {
        keys[number * CHUNK..][..CHUNK].copy_from_slice(&chunk);
    }
    keys
}

#[test]
fn wrong_lengths_name_chunks() {
    let wrong = [
        (
            0,
            "0 bytes, not the 128 of 4 chunks: chunks 0 to 3 are missing",
        ),
        (
            33,
            "33 bytes, not the 128 of 4 chunks: chunk 1 lacks 31 bytes, chunks 2 to 3 are missing",
        ),
        (
            95,
            "95 bytes, not the 128 of 4 chunks: chunk 2 lacks 1 byte, chunk 3 is missing",
        ),
        (96, "96 bytes, not the 128 of 4 chunks: chunk 3 is missing"),
        (
            127,
            "127 bytes, not the 128 of 4 chunks: chunk 3 lacks 1 byte",
        ),
        (
            129,
            "129 bytes, not the 128 of 4 chunks: 1 byte too many behind chunk 3",
        ),
        (
            160,
            "160 bytes, not the 128 of 4 chunks: 32 bytes too many behind chunk 3",
        ),
    ];
    for (length, words) in wrong {
        assert_refused("lengths", &keys(5)[..length], "4", &format!("has {words}"));
    }
    let words = "has 1 byte, not the 32 of 1 chunk: chunk 0 lacks 31 bytes";
    assert_refused("lengths", &[7], "1", words);
    let words = "has 32,767 bytes, not the 32,768 of 1,024 chunks: chunk 1023 lacks 1 byte";
    assert_refused("lengths", &keys(1024)[1..], "1024", words);
}

#[test]
fn chunks_of_zeros_are_all_named() {
    let zeros = |numbers: &[usize]| with(keys(1024), numbers, [0; CHUNK]);
    let wrong: [(&[usize], &str); 5] = [
        (&[2], "chunk 2 is all zeros, as if it were burned"),
        (
            &[0, 1023],
            "chunks 0 and 1023 are all zeros, as if they were burned",
        ),
        (
            &[3, 5, 8],
            "chunks 3, 5 and 8 are all zeros, as if they were burned",
        ),
        (
            &[9, 8, 7, 6, 5, 4, 3, 2],
            "chunks 2, 3, 4, 5, 6, 7, 8 and 9 are all zeros, as if they were burned",
        ),
        (
            &[1, 2, 3, 4, 5, 6, 7, 8, 1000],
            "chunks 1, 2, 3, 4, 5, 6, 7, 8 and 1 more are all zeros, as if they were burned",
        ),
    ];
    for (numbers, reason) in wrong {
        assert_refused("zeros", &zeros(numbers), "1024", reason);
    }
    let all = "chunks 0, 1, 2, 3, 4, 5, 6, 7 and 1,016 more are all zeros, as if they were burned";
    assert_refused("zeros", &[0; 1024 * CHUNK], "1024", all);
}

/// Of several groups of equal chunks the one that begins first is listed.
#[test]
fn equal_chunks_are_named() {
    let two_groups = with(keys(1024), &[700, 900], [9; CHUNK]);
    let two_groups = with(two_groups, &[3, 1023, 8], [255; CHUNK]);
    let eight = [1, 2, 3, 4, 5, 6, 7, 8];
    let wrong = [
        (with(keys(1024), &[0, 1], [7; CHUNK]), "0 and 1 are equal"),
        (
            two_groups,
            "3, 8 and 1023 are equal, as are those of 1 other group",
        ),
        (
            keys(512).repeat(2),
            "0 and 512 are equal, as are those of 511 other groups",
        ),
        (
            with(keys(1024), &eight, [7; CHUNK]),
            "1, 2, 3, 4, 5, 6, 7 and 8 are equal",
        ),
        (
            vec![7; 1024 * CHUNK],
            "0, 1, 2, 3, 4, 5, 6, 7 and 1,016 more are equal",
        ),
    ];
    for (keys, words) in wrong {
        let reason = format!("chunks {words}: {WHY}");
        assert_refused("equal", &keys, "1024", &reason);
    }
}

/// Chunks may differ in one bit alone, at either end.
#[test]
fn chunks_that_differ_are_taken() {
    let mut chunks = vec![7; 3 * CHUNK];
    chunks[CHUNK] = 6;
    chunks[3 * CHUNK - 1] = 6;
    let three = folder("bits", &chunks);
    pack(&three, ("--chunks", "3"), &[]).ended(0);
    let largest = folder("largest", &keys(1024));
    pack(&largest, ("--chunks", "1024"), &[]).ended(0);
    assert_eq!(largest.read("auditor.store")[18..], keys(1024));
}

#[test]
fn zeros_are_refused_before_equal_chunks() {
    let keys = with(vec![7; 4 * CHUNK], &[2, 3], [0; CHUNK]);
    let reason = "chunks 2 and 3 are all zeros, as if they were burned";
    assert_refused("zeros-first", &keys, "4", reason);
}

fn verdict(files: &Files) -> Result<u64, Rejected> {
    audit(&Material {
        device_store: &files.device,
        auditor_store: &files.auditor,
        logs: &files.logs,
        lengths: &files.lengths,
        seal_file: &files.seal,
    })
}

/// One entry under chunk 0 of two, and then a byte of it is altered and item 0
/// tagged with what the device still has: chunk 1.
fn forged(unused: Vec<u8>) -> Files {
    let data = b"07:00 164";
    let mut files = sealed(unused, &[0], &[(1, data)]);
    assert_eq!(verdict(&files), Ok(1));
    assert_eq!(files.device[18..50], [0; CHUNK]);
    files.logs[8] = b'9';
    assert_eq!(verdict(&files).unwrap_err().refusal.0, 21);
    let (id, item) = (&files.device[1..9], &files.seal[..18]);
    let message = [id, item, &files.logs[..data.len()]].concat();
    let tag = hmac_sha256(&files.device[50..], &message, 32).expect("a tag");
    files.seal[18..].copy_from_slice(&tag);
    files
}

/// Why equal chunks are refused: no rule of the audit would tell.
#[test]
fn equal_chunk_forges_what_the_burned_one_sealed() {
    let different = store(1, 2, 1);
    let mut equal = different.clone();
    equal.copy_within(18..50, 50);
    assert_eq!(verdict(&forged(equal)), Ok(1));
    assert_eq!(verdict(&forged(different)).unwrap_err().refusal.0, 21);
}

#[test]
fn keys_may_come_through_a_pipe() {
    let folder = folder("pipe", b"");
    let arguments = arguments(&folder, ("--keys", "/dev/stdin"), &[]);
    let mut tool = command(&arguments);
    tool.stdin(Stdio::piped()).stdout(Stdio::null());
    let mut tool = tool.spawn().expect("the tool runs");
    let mut pipe = tool.stdin.take().expect("a pipe");
    pipe.write_all(&keys(4)).expect("keys are written");
    drop(pipe);
    assert!(tool.wait().expect("it ends").success());
    assert_eq!(folder.read("auditor.store")[18..], keys(4));
}

#[test]
fn help_says_that_chunks_are_different_and_why() {
    let text = joined(&run(&["pack", "--help"]).ended(0));
    for words in [
        "all different",
        "must be random",
        "can forge what they sealed",
    ] {
        assert!(text.contains(words), "{text}");
    }
}
