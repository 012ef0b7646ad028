//! The archives as a linker sees them.

use std::collections::BTreeSet;
use std::process::Command;

const FOLDER: &str = concat!(env!("CARGO_MANIFEST_DIR"), "/../crates");
const PAHYNDOI: &str = "pahyndoi/out/libpahyndoi.a";
const TIMED: &str = "timed/out/libtimed.a";
const HEADER: &str = include_str!("../../include/pahyndoi.h");

/// The global symbols of the archive that `nm` lists with this flag.
fn symbols(archive: &str, flag: &str) -> BTreeSet<String> {
    let output = Command::new("nm")
        .args(["-g", flag, "--format=just-symbols", archive])
        .current_dir(FOLDER)
        .output()
        .expect("nm runs");
    assert!(output.status.success(), "{output:?}");
    let text = String::from_utf8(output.stdout).expect("UTF-8");
    text.lines().map(String::from).collect()
}

/// As the header says: firmware without a C library lends it two functions.
#[test]
fn memcpy_and_memset_alone_are_asked_for() {
    let asked_for = ["memcpy", "memset"].map(String::from);
    assert_eq!(symbols(PAHYNDOI, "--undefined-only"), asked_for.into());
}

#[test]
fn calls_of_the_header_are_there_and_nothing_else() {
    let declarations = HEADER.lines().filter(|line| line.starts_with("uint"));
    let names = declarations.filter_map(|line| line.split([' ', '(']).nth(1));
    let defined = symbols(PAHYNDOI, "--defined-only");
    assert_eq!(defined, names.map(String::from).collect());
}

/// What the benchmark alone calls stands apart.
#[test]
fn walks_are_in_an_archive_of_their_own_and_nothing_else() {
    let names = ["same", "same_by_bytes", "all_zero", "all_zero_by_bytes"];
    let expected = names.map(|name| format!("pahyndoi_timed_{name}"));
    assert_eq!(symbols(TIMED, "--defined-only"), expected.into());
    assert_eq!(symbols(TIMED, "--undefined-only"), [].into());
}
