//! Numbers as flags' values and as operands.

use crate::folder::Folder;
use crate::material::{sealed, store};
use crate::random::Random;
use crate::run::run;

/// The error about each value, given behind a space and behind a `=`.
fn assert_unwanted(command: &str, others: &[&str], flag: &str, range: &str, values: &[&str]) {
    let names: Vec<&str> = command.split(' ').collect();
    for value in values {
        let attached = format!("{flag}={value}");
        for given in [&[flag, *value][..], &[&*attached]] {
            let error = run(&[&names[..], others, given].concat()).failed();
            let expected = format!(
                "pahyndoi: {flag} wants a number from {range}, not '{value}'\n\
                 Try 'pahyndoi {command} --help'.\n"
            );
            assert_eq!(error, expected);
        }
    }
}

/// A sign and a digit are no flag. What is wanted is what the call takes, though
/// other numbers are handed to it as well.
#[test]
fn values_that_are_no_numbers() {
    let others = ["folder", "--phase=1"];
    let values = [
        "4294967296",
        "-1",
        "-0",
        "+1",
        "0x10",
        "1.5",
        "1e3",
        " 1",
        "²",
        "-",
    ];
    assert_unwanted("item", &others, "--offset", "0 to 65,535", &values);
    let others = ["folder", "--offset=1"];
    let values = ["256", "one", "-1", "+1"];
    assert_unwanted("item", &others, "--phase", "1 to 8", &values);
    let values = ["-8", "ten"];
    assert_unwanted("plan ratchet", &["36"], "--chunks", "1 to 1,024", &values);
}

/// Commas that the tool would print elsewhere, or not at all.
#[test]
fn commas_out_of_place() {
    let others = ["folder", "--phase=1"];
    let values = [
        "81,92",
        ",5",
        "5,",
        ",",
        "1,0000",
        "1,024,",
        "1,,024",
        "0,001",
        "01,024",
        "1024,000",
        "1,024,00",
        "-1,024",
        "+1,024",
        "4,294,967,296",
    ];
    assert_unwanted("item", &others, "--offset", "0 to 65,535", &values);
    let others = ["folder", "--offset=0"];
    let values = ["1,0", "0,255", "1,024"];
    assert_unwanted("item", &others, "--phase", "1 to 8", &values);
}

/// Numbers are read as they are printed, and as digits alone.
#[test]
fn commas_in_place() {
    let plain = ["--chunks=1024", "65536", "1000", "0036"];
    let commas = ["--chunks=1,024", "65,536", "1,000", "36"];
    let [plain, commas] = [plain, commas].map(|numbers| {
        let arguments = [&["plan", "ratchet"], &numbers[..]].concat();
        run(&arguments).ended(0)
    });
    assert_eq!(plain, commas);
    let refused = run(&["plan", "ratchet", "--chunks=4,294,967,295"]).ended(1);
    assert!(refused.contains("is 4,294,967,295."), "{refused}");
    let help = run(&["--help"]).ended(0);
    assert!(help.contains("8192 or 8,192"), "{help}");
}

/// A lookup answers with the offset that it was given.
#[test]
fn printed_offset_is_read() {
    let folder = Folder::new("numbers/offset");
    let entries: [(u8, &[u8]); 3] = [(1, &[b'x'; 512]), (1, &[b'y'; 512]), (1, b"z")];
    sealed(store(1, 1, 3), &[0], &entries).write(&folder);
    let text = folder.item("1", "1,024", &[]).ended(0);
    assert!(text.starts_with("Item 2 sealed the byte at offset 1,024 of phase 1.\n"));
    assert_eq!(folder.item("1", "1024", &[]).ended(0), text);
}

/// A store packed with commas is the one packed without.
#[test]
fn commas_in_a_packed_header() {
    let folder = Folder::new("numbers/pack");
    let keys = folder.write("keys.bin", &Random::new().bytes(32 * 1024));
    let header = ["--id=0011223344556677", "--phases=1", "--ratchet=16"];
    let stores = [
        ["--chunks=1024", "--data-limit=4096", "--log-capacity=65536"],
        [
            "--chunks=1,024",
            "--data-limit=4,096",
            "--log-capacity=65,536",
        ],
    ]
    .map(|numbers| {
        let out = folder.path("new.store");
        let files = ["pack", "--keys", &keys, "--out", &out, "--force"];
        run(&[&files[..], &header, &numbers].concat()).ended(0);
        folder.read("new.store")
    });
    assert_eq!(stores[0], stores[1]);
}

/// What is given is written out.
#[test]
fn control_characters_in_a_number() {
    let error = run(&["item", "folder", "--phase", "\u{7}"]).failed();
    assert!(error.contains(" to 8, not '\\u{7}'\n"), "{error}");
}

/// A dash and a digit are an operand too.
#[test]
fn operands_below_zero() {
    for value in ["-1", "-36", "-9x"] {
        let error = run(&["plan", "ratchet", "--chunks", "4", value]).failed();
        let expected = format!("pahyndoi: COUNT wants a number from 0 to 65,536, not '{value}'\n");
        assert!(error.starts_with(&expected), "{error}");
    }
    let error = run(&["dump", "-1"]).failed();
    assert_eq!(error, "pahyndoi: -1: no such file or folder\n");
    let error = run(&["demo", "-1"]).failed();
    assert!(error.starts_with("pahyndoi: '-1' is too much\n"), "{error}");
    let error = run(&["audit", "--seal", "-1"]).failed();
    let missing = "--device, --auditor, --logs, --lengths\n";
    assert!(error.contains(missing), "{error}");
}
