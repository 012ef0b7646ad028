//! `pahyndoi dump`.

use std::io::Read;
use std::process::Stdio;

use crate::folder::Folder;
use crate::material::{ENTRY, small};
use crate::run::{command, joined, run};

const HEADING: &str = "   item  kind    phase      offset      length       chunk     ratchet  tag";

/// The first bytes of the tag that ends here.
fn tag(seal: &[u8], end: usize) -> String {
    let bytes = &seal[end - 32..end - 28];
    bytes.iter().map(|byte| format!("{byte:02x}")).collect()
}

fn dump(name: &str, seal: &[u8], status: i32) -> String {
    let folder = Folder::new(&format!("dump/{name}"));
    run(&["dump", &folder.write("seal.bin", seal)]).ended(status)
}

#[test]
fn whole_file() {
    let seal = small().seal;
    let tags = [50, 100, 150, 200, 250, 291].map(|end| tag(&seal, end));
    let expected = format!(
        "{HEADING}
      0  entry       1           0          10           0           0  {}
      1  entry       2           0           4           0           1  {}
      2  entry       1          10          10           0           2  {}
      3  entry       2           4           4           1           0  {}
      4  entry       1          20          10           1           1  {}
      5  filler      -           -           -           1           2  {}
6 items in 291 bytes.
",
        tags[0], tags[1], tags[2], tags[3], tags[4], tags[5]
    );
    assert_eq!(dump("whole", &seal, 0), expected);
}

#[test]
fn empty_file() {
    let text = dump("empty", &[], 0);
    assert!(text.ends_with("tag\n0 items in 0 bytes.\n"), "{text}");
}

#[test]
fn unknown_kind() {
    let mut seal = small().seal;
    seal[2 * ENTRY] = 255;
    let text = dump("kind", &seal, 1);
    assert_eq!(
        text.lines().filter(|line| line.contains("entry  ")).count(),
        2
    );
    let damage = "Damaged from item 2 at byte 100: its kind is 255, not 2 (entry), 3 (filler) or 5 \
                  (restart).";
    assert!(joined(&text).ends_with(damage), "{text}");
}

/// Cut inside an item: the whole items are listed, and the end is named.
#[test]
fn every_short_end() {
    let seal = small().seal;
    for length in [1, 49, 51, 99, 249, 251, 290] {
        let text = dump("short", &seal[..length], 1);
        let (item, left) = (length / ENTRY, length % ENTRY);
        assert_eq!(text.lines().next(), Some(HEADING));
        let damage = format!("Damaged from item {item} at byte {}:", item * ENTRY);
        assert!(joined(&text).contains(&damage), "{text}");
        let cause = format!("and the file ends after {left} of them.");
        assert!(joined(&text).ends_with(&cause), "{text}");
    }
}

#[test]
fn unreadable_files() {
    let folder = Folder::new("dump/unreadable");
    let error = run(&["dump", folder.whole()]).failed();
    assert!(error.contains("is a folder, not a file"), "{error}");
    let error = run(&["dump", &folder.path("none")]).failed();
    assert!(error.contains("no such file or folder"), "{error}");
    let error = run(&["dump"]).failed();
    assert!(error.contains("a seal file is missing"), "{error}");
}

/// A reader that leaves early, as `head` does, is no error.
#[test]
fn closed_pipe() {
    let folder = Folder::new("dump/pipe");
    let path = folder.write("seal.bin", &small().seal[..ENTRY].repeat(20_000));
    let mut child = command(&["dump", &path])
        .stdout(Stdio::piped())
        .stderr(Stdio::piped())
        .spawn()
        .expect("the tool runs");
    let mut first = [0; 10];
    let mut out = child.stdout.take().expect("a pipe");
    out.read_exact(&mut first).expect("the first bytes");
    drop(out);
    let output = child.wait_with_output().expect("the tool ends");
    assert_eq!(output.status.code(), Some(0));
    assert!(output.stderr.is_empty());
}

#[cfg(target_os = "linux")]
#[test]
fn full_disk() {
    let folder = Folder::new("dump/full");
    let path = folder.write("seal.bin", &small().seal);
    let full = std::fs::File::options()
        .write(true)
        .open("/dev/full")
        .unwrap();
    let output = command(&["dump", &path]).stdout(full).output().unwrap();
    assert_eq!(output.status.code(), Some(2));
    let error = String::from_utf8(output.stderr).unwrap();
    assert!(
        error.starts_with("pahyndoi: cannot write to standard output: "),
        "{error}"
    );
}
