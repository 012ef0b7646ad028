//! `pahyndoi demo`.

use crate::folder::Folder;
use crate::run::{assert_narrow, run, run_by};

const EXPECTED: &str = include_str!("../data/demo.txt");

#[test]
fn output_is_the_stored_one() {
    let text = run(&["demo"]).ended(0);
    assert_narrow(&text);
    for (expected, line) in EXPECTED.lines().zip(text.lines()) {
        assert_eq!(line, expected);
    }
    assert_eq!(text.len(), EXPECTED.len());
}

#[test]
fn written_material_is_accepted() {
    let folder = Folder::new("demo/out");
    let place = folder.path("new/place");
    let text = run(&["demo", "--out", &place]).ended(0);
    assert!(text.starts_with(EXPECTED), "{text}");
    let verdict = run(&["audit", &place, "--no-picture"]).ended(0);
    let expected = "ACCEPTED: 98 items.\n  1 restart, as after a loss of power: item 66 (chunk 4 had \
                    2 items).\n";
    assert_eq!(verdict, expected);
    let table = run(&["dump", &folder.path("new/place/seal.bin")]).ended(0);
    assert!(table.ends_with("98 items in 4,670 bytes.\n"), "{table}");
}

/// What is dropped behind the first item of the last burned chunk passes, what
/// is dropped before it does not.
#[test]
fn made_up_cuts() {
    let text = run(&["demo"]).ended(0);
    let (_, acts) = text.split_once("   k. has the controller, ").expect("k");
    let (passes, refused) = acts.split_once("   l. has the controller, ").expect("l");
    assert!(passes.contains("      ACCEPTED: 99 items.\n"), "{passes}");
    assert!(
        refused.contains("      REFUSED by rule 17 at item 79: "),
        "{refused}"
    );
}

#[test]
fn existing_files_are_left_alone() {
    let folder = Folder::new("demo/existing");
    folder.write("seal.bin", b"mine");
    let error = run(&["demo", "--out", folder.whole()]).failed();
    assert!(error.contains("seal.bin: is there already"), "{error}");
    assert_eq!(folder.read("seal.bin"), b"mine");
    assert!(!std::fs::exists(folder.path("device.store")).unwrap());
}

#[test]
fn file_in_the_place_of_the_folder() {
    let folder = Folder::new("demo/file");
    let place = folder.write("file", b"mine");
    let error = run(&["demo", "--out", &place]).failed();
    let expected = format!("pahyndoi: {place}: cannot make this folder: ");
    assert!(error.starts_with(&expected), "{error}");
}

/// Where files can't grow, as on a full disk, there is no story either.
#[test]
fn material_that_cannot_be_written() {
    let folder = Folder::new("demo/short");
    let script = "trap '' XFSZ; ulimit -f 0; exec \"$@\"";
    let error = run_by(script, &["demo", "--out", folder.whole()]).failed();
    assert!(error.contains("device.store: cannot write it: "), "{error}");
}

/// A link that leads nowhere is there too: no file is written beside it.
#[test]
fn existing_links_are_left_alone() {
    let folder = Folder::new("demo/link");
    std::os::unix::fs::symlink("nowhere", folder.path("seal.bin")).unwrap();
    let error = run(&["demo", "--out", folder.whole()]).failed();
    assert!(error.contains("seal.bin: is there already"), "{error}");
    assert!(!std::fs::exists(folder.path("device.store")).unwrap());
}
