//! Standard outputs that can't be written, and some that can.

use std::process::Stdio;

use crate::folder::Folder;
use crate::material::{ENTRY, small};
use crate::random::Random;
use crate::run::{Run, command, run, run_by};

const CANNOT_WRITE: &str = "pahyndoi: cannot write to standard output: ";

fn small_folder(name: &str) -> Folder {
    let folder = Folder::new(&format!("output/{name}"));
    small().write(&folder);
    folder
}

/// Arguments of every command but those that make files, each with its status.
fn arguments(folder: &Folder) -> Vec<(Vec<String>, i32)> {
    let whole = folder.whole();
    let store = folder.path("device.store");
    let seal = folder.read("seal.bin");
    let short = folder.write("short.bin", &seal[..ENTRY]);
    let arguments: [(&[&str], i32); 13] = [
        (&["--help"], 0),
        (&["--version"], 0),
        (&["help", "audit"], 0),
        (&["demo"], 0),
        (&["audit", whole], 0),
        (&["audit", whole, "--json"], 0),
        (&["audit", whole, "--seal", &short], 1),
        (&["item", whole, "--phase=1", "--offset=0"], 0),
        (&["item", whole, "--phase=1", "--offset=30", "--json"], 1),
        (&["dump", &short, "--json"], 0),
        (&["dump", &store], 0),
        (&["plan", "ratchet", "--chunks=8", "36"], 0),
        (&["plan", "ratchet", "--chunks=8", "65536"], 1),
    ];
    let owned = |arguments: &[&str]| arguments.iter().map(|text| text.to_string()).collect();
    arguments
        .map(|(arguments, status)| (owned(arguments), status))
        .into()
}

/// Arguments that make a store and a folder of these names.
fn arguments_that_write(folder: &Folder) -> [(Vec<String>, &'static str); 2] {
    let keys = folder.write("keys.bin", &Random::new().bytes(64));
    let header = [
        "--id=0011223344556677",
        "--phases=1",
        "--chunks=2",
        "--ratchet=16",
    ];
    let out = |name| ["--out".to_string(), folder.path(name)];
    let pack = [&["pack", "--keys", &keys], &header[..]].concat();
    let pack = pack.into_iter().map(String::from).chain(out("new.store"));
    let demo = ["demo".to_string()].into_iter().chain(out("new"));
    [(pack.collect(), "new.store"), (demo.collect(), "new")]
}

/// The answer would be lost without a word: an error, whatever the answer.
#[test]
fn closed() {
    let folder = small_folder("closed");
    for (arguments, _) in arguments(&folder) {
        let error = run_by("exec \"$@\" >&-", &arguments).failed();
        let expected = format!("{CANNOT_WRITE}it is closed\n");
        assert_eq!(error, expected, "{arguments:?}");
        let run = run_by("exec \"$@\" <&- >&- 2>&-", &arguments);
        assert_eq!(run.status, Some(2), "{arguments:?}");
    }
}

/// What nobody would be told of is not made.
#[test]
fn closed_before_files_are_made() {
    let folder = Folder::new("output/files");
    for (arguments, name) in arguments_that_write(&folder) {
        let error = run_by("exec \"$@\" >&-", &arguments).failed();
        assert!(error.starts_with(CANNOT_WRITE), "{error}");
        assert!(!std::fs::exists(folder.path(name)).unwrap());
        run_by("exec \"$@\" >/dev/null", &arguments).ended(0);
        assert!(std::fs::exists(folder.path(name)).unwrap());
    }
}

/// One line says so, whatever the command, with standard output so.
fn assert_cannot_write(name: &str, redirected: &str) {
    let folder = small_folder(name);
    for (arguments, _) in arguments(&folder) {
        let error = run_by(&format!("exec \"$@\" {redirected}"), &arguments).failed();
        assert!(error.starts_with(CANNOT_WRITE), "{error}");
        assert_eq!(error.lines().count(), 1, "{error}");
    }
}

#[test]
fn open_for_reading_alone() {
    assert_cannot_write("reading", "1</dev/null");
}

#[cfg(target_os = "linux")]
#[test]
fn full() {
    assert_cannot_write("full", ">/dev/full");
}

/// Somebody chose to have no output, with `/dev/null` open to writing alone or
/// to both: the status is what was asked for.
#[test]
fn null_device() {
    let folder = small_folder("null");
    for (arguments, status) in arguments(&folder) {
        for script in ["exec \"$@\" >/dev/null", "exec \"$@\" 1<>/dev/null"] {
            let out = run_by(script, &arguments).ended(status);
            assert_eq!(out, "", "{arguments:?}");
        }
    }
}

/// A reader that leaves before the first byte is no error, and the status is
/// the command's own.
#[test]
fn reader_has_gone() {
    let folder = small_folder("gone");
    for (arguments, status) in arguments(&folder) {
        let mut child = command(&arguments)
            .stdout(Stdio::piped())
            .stderr(Stdio::piped())
            .spawn()
            .expect("the tool runs");
        drop(child.stdout.take());
        let output = child.wait_with_output().expect("the tool ends");
        let run = Run::from(output);
        assert_eq!(run.ended(status), "", "{arguments:?}");
    }
}

/// To a file the output is whole.
#[test]
fn file() {
    let folder = small_folder("file");
    let place = folder.path("out.txt");
    for (arguments, status) in arguments(&folder) {
        let whole = run(&arguments).ended(status);
        let script = format!("exec \"$@\" >'{place}'");
        assert_eq!(run_by(&script, &arguments).ended(status), "");
        assert_eq!(folder.read("out.txt"), whole.as_bytes());
    }
}
