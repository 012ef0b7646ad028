//! File names of any bytes, for machines and for people.

use std::ffi::{OsStr, OsString};
use std::fs;
use std::os::unix::ffi::OsStrExt;
use std::path::Path;

use crate::folder::Folder;
use crate::material::{ENTRY, small};
use crate::run::{joined, run};

/// Names in a folder, and how each is written: two that differ in one byte,
/// which is no UTF-8, others that hold what stands for such a byte, and one
/// with the mark that often stands for all of them.
const NAMES: [(&[u8], &str); 8] = [
    (b"seal \xff.bin", r"seal \xff.bin"),
    (b"seal \xfe.bin", r"seal \xfe.bin"),
    (br"seal \xff.bin", r"seal \\xff.bin"),
    (b"seal \\\xff.bin", r"seal \\\xff.bin"),
    (br"seal \\xff.bin", r"seal \\\\xff.bin"),
    (b"\xe2\x82\xac \xe2\x82.bin", "\u{20ac} \\xe2\\x82.bin"),
    (b"\xed\xa0\x80", r"\xed\xa0\x80"),
    ("caf\u{e9} \u{fffd}".as_bytes(), "caf\u{e9} \u{fffd}"),
];

fn small_folder(name: &str) -> Folder {
    let folder = Folder::new(&format!("names/{name}"));
    small().write(&folder);
    folder
}

fn path(folder: &Folder, name: &[u8]) -> OsString {
    Path::new(folder.whole())
        .join(OsStr::from_bytes(name))
        .into()
}

/// The name that is written so.
fn read(written: &str) -> Vec<u8> {
    let mut bytes = Vec::new();
    let mut rest = written;
    while let Some((plain, escape)) = rest.split_once('\\') {
        bytes.extend(plain.bytes());
        let (byte, length) = match escape.strip_prefix('x') {
            Some(digits) => (u8::from_str_radix(&digits[..2], 16).expect("a byte"), 3),
            None => (b'\\', 1),
        };
        bytes.push(byte);
        rest = &escape[length..];
    }
    bytes.extend(rest.bytes());
    bytes
}

/// In JSON a backslash stands behind another.
fn quoted(text: &str) -> String {
    format!("\"{}\"", text.replace('\\', r"\\"))
}

#[test]
fn written_names_can_be_read() {
    for (name, written) in NAMES {
        assert_eq!(read(written), name, "{written}");
    }
}

/// Accepted and refused material, by both commands that name files.
#[test]
fn names_for_machines() {
    let folder = small_folder("json");
    let seal = folder.read("seal.bin");
    for (name, written) in NAMES {
        let path = path(&folder, name);
        let expected = quoted(&format!("{}/{written}", folder.whole()));
        for (length, status) in [(seal.len(), 0), (ENTRY, 1)] {
            fs::write(&path, &seal[..length]).expect("a file is written");
            for command in [&["audit"][..], &["item", "--phase=1", "--offset=0"]] {
                let more = [folder.whole(), "--json", "--seal"];
                let mut arguments: Vec<&OsStr> = command.iter().map(OsStr::new).collect();
                arguments.extend(more.map(OsStr::new));
                arguments.push(&path);
                let text = run(&arguments).ended(status);
                assert!(
                    text.ends_with(&format!("\"seal\":{expected}}}}}\n")),
                    "{text}"
                );
            }
        }
    }
}

/// Each file in a folder of such a name.
#[test]
fn folders_for_machines() {
    let folder = Folder::new("names/folders");
    for (name, written) in NAMES {
        let inner = path(&folder, name);
        fs::create_dir(&inner).expect("a new folder comes");
        let files = small();
        let parts = [
            ("device", "device.store", files.device),
            ("auditor", "auditor.store", files.auditor),
            ("logs", "logs.bin", files.logs),
            ("lengths", "lengths.bin", files.lengths),
            ("seal", "seal.bin", files.seal),
        ];
        let mut members = Vec::new();
        for (member, file, bytes) in parts {
            fs::write(Path::new(&inner).join(file), bytes).expect("a file is written");
            let name = quoted(&format!("{}/{written}/{file}", folder.whole()));
            members.push(format!("\"{member}\":{name}"));
        }
        let text = run(&[OsStr::new("audit"), OsStr::new("--json"), &inner]).ended(0);
        let expected = format!(",\"files\":{{{}}}}}\n", members.join(","));
        assert!(text.ends_with(&expected), "{text}");
    }
}

/// The same for people, who see control characters written out too.
#[test]
fn names_for_people() {
    let folder = Folder::new("names/people");
    let control: [(&[u8], &str); 3] = [
        (b"\t\n\x1b\xff", r"\t\n\u{1b}\xff"),
        (br"\t\n\u{1b}\xff", r"\\t\\n\\u{1b}\\xff"),
        (b"\xc2\x9b\x9b", r"\u{9b}\x9b"),
    ];
    for (name, written) in NAMES.into_iter().chain(control) {
        let error = run(&[OsStr::new("dump"), &path(&folder, name)]).failed();
        let place = format!("{}/{written}", folder.whole());
        assert_eq!(
            error,
            format!("pahyndoi: {place}: no such file or folder\n")
        );
        let error = run(&[OsStr::from_bytes(name)]).failed();
        let expected = format!("pahyndoi: unknown command '{written}'\n");
        assert!(error.starts_with(&expected), "{error}");
    }
}

#[test]
fn help_says_how_names_are_written() {
    for command in ["audit", "item"] {
        let help = run(&[command, "--help"]).ended(0);
        let said = "files (their names; a byte that is no UTF-8 is written as \\xff, a backslash \
                    as two);";
        assert!(joined(&help).contains(said), "{help}");
    }
}
