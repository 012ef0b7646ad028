//! `pahyndoi pack`: its values, and the store that is made of them.

use std::fs;

use crate::folder::Folder;
use crate::run::{Run, run};

const VALUES: [(&str, &str); 4] = [
    ("--id", "0011223344556677"),
    ("--phases", "3"),
    ("--chunks", "4"),
    ("--ratchet", "16"),
];

/// What packs 4 chunks, with one flag's value replaced and further arguments.
pub fn arguments(folder: &Folder, replaced: (&str, &str), more: &[&str]) -> Vec<String> {
    let (keys, out) = (folder.path("keys.bin"), folder.path("auditor.store"));
    let mut values = VALUES.to_vec();
    values.extend([("--keys", &*keys), ("--out", &*out)]);
    let mut arguments = vec!["pack"];
    for (flag, value) in values {
        let value = if flag == replaced.0 {
            replaced.1
        } else {
            value
        };
        arguments.extend([flag, value]);
    }
    arguments.extend(more);
    arguments.into_iter().map(String::from).collect()
}

pub fn pack(folder: &Folder, replaced: (&str, &str), more: &[&str]) -> Run {
    run(&arguments(folder, replaced, more))
}

/// So many chunks, all different and none all zeros: each is its number, counted
/// from 1, 16 times over.
pub fn keys(chunks: u16) -> Vec<u8> {
    let chunks = (1..=chunks).map(|number| number.to_le_bytes().repeat(16));
    chunks.flatten().collect()
}

pub fn folder(name: &str, keys: &[u8]) -> Folder {
    let folder = Folder::new(&format!("pack/{name}"));
    folder.write("keys.bin", keys);
    folder
}

pub const NONE: (&str, &str) = ("", "");

#[test]
fn store_is_header_and_keys() {
    let keys: Vec<u8> = (0..128).collect();
    let folder = folder("store", &keys);
    let text = pack(&folder, NONE, &[]).ended(0);
    let path = folder.path("auditor.store");
    let expected = format!("{path}: 146 bytes; 3 phases, 4 chunks for up to 64 items.\n");
    assert_eq!(text, expected);
    let header = [
        1, 0, 0x11, 0x22, 0x33, 0x44, 0x55, 0x66, 0x77, 3, 4, 0, 0, 0, 16, 0, 0, 0,
    ];
    assert_eq!(folder.read("auditor.store"), [&header[..], &keys].concat());
}

/// The first byte of a header, and the 9 behind the fields of both kinds.
fn kind_and_set(store: &[u8]) -> (u8, &[u8]) {
    (store[0], &store[18..27])
}

/// All else stands in the store as it does in one of kind 1.
#[test]
fn store_carries_its_set() {
    let keys: Vec<u8> = (1..=128).collect();
    let common = folder("no-set", &keys);
    pack(&common, NONE, &[]).ended(0);
    let common = common.read("auditor.store");
    let sets: [([&str; 3], &str, [u8; 9]); 3] = [
        (
            ["16", "1", "512"],
            "tag length 16, data limit 1, log capacity 512",
            [16, 1, 0, 0, 0, 0, 2, 0, 0],
        ),
        (
            ["16", "4096", "4096"],
            "tag length 16, data limit 4,096, log capacity 4,096",
            [16, 0, 16, 0, 0, 0, 16, 0, 0],
        ),
        (
            ["32", "4096", "65536"],
            "tag length 32, data limit 4,096, log capacity 65,536",
            [32, 0, 16, 0, 0, 0, 0, 1, 0],
        ),
    ];
    for ([tag, data, log], words, bytes) in sets {
        let folder = folder("set", &keys);
        let set = [
            "--tag-length",
            tag,
            "--data-limit",
            data,
            "--log-capacity",
            log,
        ];
        let text = pack(&folder, NONE, &set).ended(0);
        let path = folder.path("auditor.store");
        let expected =
            format!("{path}: 155 bytes; 3 phases, 4 chunks for up to 64 items; {words}.\n");
        assert_eq!(text, expected);
        let store = folder.read("auditor.store");
        assert_eq!(kind_and_set(&store), (6, &bytes[..]));
        assert_eq!(store[1..18], common[1..18]);
        assert_eq!(store[27..], common[18..]);
    }
}

/// One flag is enough; the other two parameters are those of kind 1.
#[test]
fn parameters_left_out_are_the_common_ones() {
    let flags = [
        ("--tag-length=16", [16, 0, 2, 0, 0, 0, 32, 0, 0]),
        ("--data-limit=1", [32, 1, 0, 0, 0, 0, 32, 0, 0]),
        ("--data-limit=4096", [32, 0, 16, 0, 0, 0, 32, 0, 0]),
        ("--log-capacity=512", [32, 0, 2, 0, 0, 0, 2, 0, 0]),
        ("--log-capacity=8192", [32, 0, 2, 0, 0, 0, 32, 0, 0]),
    ];
    for (flag, set) in flags {
        let folder = folder("one-flag", &keys(4));
        pack(&folder, NONE, &[flag]).ended(0);
        let store = folder.read("auditor.store");
        assert_eq!(kind_and_set(&store), (6, &set[..]), "{flag}");
        assert_eq!(store.len(), 155);
    }
}

/// A store with the smallest and one with the largest set is opened.
#[test]
fn packed_stores_open() {
    for (set, capacity) in [
        (
            ["--tag-length=16", "--data-limit=1", "--log-capacity=512"],
            512,
        ),
        (
            [
                "--tag-length=32",
                "--data-limit=4096",
                "--log-capacity=65536",
            ],
            65_536,
        ),
    ] {
        let folder = folder("open", &keys(4));
        pack(&folder, NONE, &set).ended(0);
        let store = folder.read("auditor.store");
        let logs = vec![0; 3 * capacity];
        assert!(pahyndoi::open(&store, &logs, &[0; 3], &[], 0).is_ok());
    }
}

#[test]
fn values_out_of_range() {
    let folder = folder("range", &[7; 128]);
    let id = "16 hexadecimal digits, for 8 bytes, such as 736d616c6c203037";
    let wrong = [
        ("--id", "00112233445566", id),
        ("--id", "001122334455667g", id),
        ("--id", "+011223344556677", id),
        ("--id", "-011223344556677", id),
        ("--id", "junction7", id),
        ("--id", "\u{e9}\u{e9}112233445566", id),
        ("--phases", "0", "a number from 1 to 8"),
        ("--phases", "-1", "a number from 1 to 8"),
        ("--phases", "9", "a number from 1 to 8"),
        ("--phases", "+3", "a number from 1 to 8"),
        ("--phases", "three", "a number from 1 to 8"),
        ("--chunks", "0", "a number from 1 to 1,024"),
        ("--chunks", "1025", "a number from 1 to 1,024"),
        ("--ratchet", "0", "a number from 1 to 256"),
        ("--ratchet", "257", "a number from 1 to 256"),
        (
            "--ratchet",
            "99999999999999999999",
            "a number from 1 to 256",
        ),
    ];
    for (flag, value, reason) in wrong {
        let error = pack(&folder, (flag, value), &[]).failed();
        let expected = format!("pahyndoi: {flag} wants {reason}, not '{value}'\n");
        assert!(error.starts_with(&expected), "{error}");
        assert!(error.ends_with("Try 'pahyndoi pack --help'.\n"), "{error}");
    }
    assert!(!fs::exists(folder.path("auditor.store")).unwrap());
}

#[test]
fn sets_out_of_range() {
    let folder = folder("set-range", &[7; 128]);
    let wrong: [(&[&str], &str); 14] = [
        (
            &["--tag-length=15"],
            "--tag-length wants a number from 16 to 32, not '15'",
        ),
        (
            &["--tag-length=33"],
            "--tag-length wants a number from 16 to 32, not '33'",
        ),
        (
            &["--tag-length=272"],
            "--tag-length wants a number from 16 to 32, not '272'",
        ),
        (
            &["--tag-length=+16"],
            "--tag-length wants a number from 16 to 32, not '+16'",
        ),
        (
            &["--data-limit=0"],
            "--data-limit wants a number from 1 to 4,096, not '0'",
        ),
        (
            &["--data-limit=4097"],
            "--data-limit wants a number from 1 to 4,096, not '4097'",
        ),
        (
            &["--data-limit=all"],
            "--data-limit wants a number from 1 to 4,096, not 'all'",
        ),
        (
            &["--log-capacity=511"],
            "--log-capacity wants a number from 512 to 65,536, not '511'",
        ),
        (
            &["--log-capacity=65537"],
            "--log-capacity wants a number from 512 to 65,536, not '65537'",
        ),
        (
            &["--log-capacity=81,92"],
            "--log-capacity wants a number from 512 to 65,536, not '81,92'",
        ),
        (
            &["--log-capacity=512", "--data-limit=513"],
            "--log-capacity wants a number from 513, the --data-limit, to 65,536, not '512'",
        ),
        (
            &["--data-limit=4,096", "--log-capacity=4,095"],
            "--log-capacity wants a number from 4,096, the --data-limit, to 65,536, not '4,095'",
        ),
        (&["--data-limit"], "--data-limit needs a value"),
        (
            &["--tag-length=16", "--tag-length=16"],
            "--tag-length is given twice",
        ),
    ];
    for (flags, reason) in wrong {
        let error = pack(&folder, NONE, flags).failed();
        let expected = format!("pahyndoi: {reason}\nTry 'pahyndoi pack --help'.\n");
        assert_eq!(error, expected);
    }
    assert!(!fs::exists(folder.path("auditor.store")).unwrap());
}

#[test]
fn every_flag_is_needed() {
    let error = run(&["pack", "--id", "0011223344556677"]).failed();
    assert!(
        error.starts_with("pahyndoi: --phases is missing\n"),
        "{error}"
    );
}
