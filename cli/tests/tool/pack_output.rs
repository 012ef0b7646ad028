//! Where `pahyndoi pack` writes, and what it leaves alone.

use std::fs::{self, OpenOptions, Permissions};
use std::os::unix::fs::{FileTypeExt, PermissionsExt, symlink};
use std::process::{Command, Output, Stdio};

use crate::folder::Folder;
use crate::pack::{NONE, arguments, folder, keys, pack};
use crate::run::{command, joined, run, run_by};

const STORE_LENGTH: usize = 146;
const KEYS: &str = "is the key file itself, and is left as it is";

fn mode(folder: &Folder, name: &str) -> u32 {
    let metadata = fs::metadata(folder.path(name)).expect("a file");
    metadata.permissions().mode() & 0o7777
}

/// A folder with keys, and with a store of this mode.
fn with_old_store(name: &str, mode: u32) -> Folder {
    let folder = folder(name, &keys(4));
    let path = folder.write("auditor.store", b"old");
    fs::set_permissions(path, Permissions::from_mode(mode)).expect("a mode is set");
    folder
}

/// The names of what is in the folder, in order.
fn names(folder: &Folder) -> Vec<String> {
    let entries = fs::read_dir(folder.whole()).expect("a folder");
    let names = entries.map(|entry| entry.expect("an entry").file_name());
    let mut names: Vec<String> = names.map(|name| name.into_string().unwrap()).collect();
    names.sort();
    names
}

/// Packs in a shell, behind this script; in it `$0` is the folder.
fn packed_behind(script: &str, folder: &Folder, more: &[&str]) -> Output {
    Command::new("sh")
        .args(["-c", &format!("{script}; exec \"$@\""), folder.whole()])
        .arg(env!("CARGO_BIN_EXE_pahyndoi"))
        .args(arguments(folder, NONE, more))
        .output()
        .expect("a shell runs")
}

/// Packs where files can't grow, as on a full disk.
fn failed_to_write(folder: &Folder, more: &[&str]) {
    let output = packed_behind("ulimit -f 0", folder, more);
    let error = String::from_utf8(output.stderr).expect("UTF-8");
    assert_eq!(output.status.code(), Some(2));
    assert!(
        error.contains("auditor.store: cannot write it: "),
        "{error}"
    );
}

#[test]
fn existing_store_is_left_unless_forced() {
    let folder = folder("force", &keys(4));
    folder.write("auditor.store", b"old");
    let error = pack(&folder, NONE, &[]).failed();
    assert!(error.contains("is there already"), "{error}");
    assert_eq!(folder.read("auditor.store"), b"old");
    pack(&folder, NONE, &["--force"]).ended(0);
    assert_eq!(folder.read("auditor.store").len(), STORE_LENGTH);
    assert_eq!(names(&folder), ["auditor.store", "keys.bin"]);
}

#[test]
fn name_with_spaces_stays_as_it_is() {
    let folder = folder("spaces", &keys(4));
    let path = folder.path("two  spaces.store");
    let text = pack(&folder, ("--out", &path), &[]).ended(0);
    assert!(text.starts_with(&format!("{path}: 146 bytes;")), "{text}");
}

/// The new file has a short name of its own until it takes the old one's.
#[test]
fn longest_name_can_be_replaced() {
    let folder = folder("long", &keys(4));
    let name = "n".repeat(255);
    let path = folder.write(&name, b"old");
    pack(&folder, ("--out", &path), &["--force"]).ended(0);
    assert_eq!(folder.read(&name).len(), STORE_LENGTH);
}

/// A path may be a name alone, in the folder where the tool runs.
#[test]
fn name_alone_is_in_the_folder_at_hand() {
    let folder = folder("alone", &keys(4));
    for more in [&[][..], &["--force"]] {
        let arguments = arguments(&folder, ("--out", "auditor.store"), more);
        let mut tool = command(&arguments);
        let output = tool.current_dir(folder.whole()).output();
        assert!(output.expect("the tool runs").status.success());
        assert_eq!(folder.read("auditor.store").len(), STORE_LENGTH);
    }
}

#[test]
fn store_that_cannot_be_written_whole_is_removed() {
    let folder = folder("short", &keys(4));
    for more in [&[][..], &["--force"]] {
        failed_to_write(&folder, more);
        assert_eq!(names(&folder), ["keys.bin"]);
    }
}

#[test]
fn old_store_outlasts_a_write_that_fails() {
    let folder = with_old_store("outlasts", 0o640);
    failed_to_write(&folder, &["--force"]);
    assert_eq!(folder.read("auditor.store"), b"old");
    assert_eq!(mode(&folder, "auditor.store"), 0o640);
    assert_eq!(names(&folder), ["auditor.store", "keys.bin"]);
}

#[test]
fn store_is_its_owners_alone() {
    let folder = folder("mode", &keys(4));
    pack(&folder, NONE, &[]).ended(0);
    assert_eq!(mode(&folder, "auditor.store"), 0o600);
}

#[test]
fn forced_store_is_its_owners_alone() {
    let folder = with_old_store("forced-mode", 0o644);
    pack(&folder, NONE, &["--force"]).ended(0);
    assert_eq!(mode(&folder, "auditor.store"), 0o600);
}

/// Whoever can read the old file, by another name or an open handle, does not
/// get at the new keys.
#[test]
fn other_name_of_the_old_store_keeps_its_bytes() {
    let folder = folder("other-name", &keys(4));
    folder.write("auditor.store", b"old");
    fs::hard_link(folder.path("auditor.store"), folder.path("other")).unwrap();
    pack(&folder, NONE, &["--force"]).ended(0);
    assert_eq!(folder.read("other"), b"old");
}

/// By each name that the key file has, forced or not.
#[test]
fn keys_are_not_written_over() {
    let folder = folder("same", &keys(4));
    let path = folder.path("keys.bin");
    fs::hard_link(&path, folder.path("hard")).unwrap();
    symlink("keys.bin", folder.path("soft")).unwrap();
    for name in ["keys.bin", "./keys.bin", "../same/keys.bin", "hard", "soft"] {
        for more in [&["--force"][..], &[]] {
            let out = folder.path(name);
            let error = pack(&folder, ("--out", &out), more).failed();
            assert_eq!(error, format!("pahyndoi: {out}: {KEYS}\n"));
            assert_eq!(folder.read("keys.bin"), keys(4), "{name}");
        }
    }
    assert_eq!(names(&folder), ["hard", "keys.bin", "soft"]);
}

#[test]
fn keys_named_by_a_link_are_not_written_over() {
    let folder = folder("same-link", &keys(4));
    let (link, file) = (folder.path("keys.bin"), folder.path("file"));
    fs::rename(&link, &file).unwrap();
    symlink("file", &link).unwrap();
    let error = pack(&folder, ("--out", &file), &["--force"]).failed();
    assert_eq!(error, format!("pahyndoi: {file}: {KEYS}\n"));
    assert_eq!(folder.read("file"), keys(4));
}

#[test]
fn keys_on_standard_input_are_not_written_over() {
    let folder = folder("same-input", &keys(4));
    folder.write("auditor.store", &keys(4));
    let input = fs::File::open(folder.path("auditor.store")).unwrap();
    let arguments = arguments(&folder, ("--keys", "/dev/stdin"), &["--force"]);
    let output = command(&arguments).stdin(Stdio::from(input)).output();
    let output = output.expect("the tool runs");
    let error = String::from_utf8(output.stderr).expect("UTF-8");
    assert_eq!(output.status.code(), Some(2), "{error}");
    assert!(error.contains(KEYS), "{error}");
    assert_eq!(folder.read("auditor.store"), keys(4));
}

/// Of keys through a pipe only the bytes tell from which file they are.
#[test]
fn keys_through_a_pipe_are_not_written_over() {
    let folder = folder("same-bytes", &keys(4));
    let out = folder.write("auditor.store", &keys(4));
    let arguments = arguments(&folder, ("--keys", "/dev/stdin"), &["--force"]);
    let error = run_by(&format!("cat '{out}' | \"$@\""), &arguments).failed();
    let words = "has the very bytes of the keys, and is left as it is";
    assert_eq!(error, format!("pahyndoi: {out}: {words}\n"));
    assert_eq!(folder.read("auditor.store"), keys(4));
}

/// A rename would not ask about it.
#[test]
fn protected_files_are_left_alone() {
    for mode in [0o400, 0o444] {
        let folder = with_old_store("protected", mode);
        let path = folder.path("auditor.store");
        let error = pack(&folder, NONE, &["--force"]).failed();
        let words = "is write-protected, and is left as it is";
        assert_eq!(error, format!("pahyndoi: {path}: {words}\n"));
        assert_eq!(folder.read("auditor.store"), b"old");
        assert_eq!(names(&folder), ["auditor.store", "keys.bin"]);
    }
}

/// Nothing is written through a link, be there a file at its end or not.
#[test]
fn links_are_left_alone() {
    let folder = folder("links", &keys(4));
    folder.write("target", b"mine");
    for target in ["target", "nowhere", "."] {
        let link = folder.path("auditor.store");
        symlink(target, &link).unwrap();
        let error = pack(&folder, NONE, &["--force"]).failed();
        let words = "is a link, and is left as it is";
        assert_eq!(error, format!("pahyndoi: {link}: {words}\n"));
        let error = pack(&folder, NONE, &[]).failed();
        assert!(error.contains("is there already"), "{error}");
        assert_eq!(fs::read_link(&link).unwrap().to_str(), Some(target));
        fs::remove_file(&link).unwrap();
    }
    assert_eq!(folder.read("target"), b"mine");
    assert_eq!(names(&folder), ["keys.bin", "target"]);
}

#[test]
fn folders_are_left_alone() {
    let folder = folder("folder", &keys(4));
    let inner = folder.path("inner");
    fs::create_dir(&inner).unwrap();
    let error = pack(&folder, ("--out", &inner), &["--force"]).failed();
    let words = "is a folder, and is left as it is";
    assert_eq!(error, format!("pahyndoi: {inner}: {words}\n"));
    assert_eq!(names(&folder), ["inner", "keys.bin"]);
}

/// As /dev/null is no file to be replaced either. The pipe has a reader, so that
/// to open it is not to wait.
#[test]
fn pipes_are_left_alone() {
    let folder = folder("pipe-out", &keys(4));
    let path = folder.path("pipe");
    let made = Command::new("mkfifo").arg(&path).status();
    assert!(made.expect("mkfifo runs").success());
    let mut both = OpenOptions::new();
    let _reader = both.read(true).write(true).open(&path).unwrap();
    let error = pack(&folder, ("--out", &path), &["--force"]).failed();
    let words = "is no regular file, and is left as it is";
    assert_eq!(error, format!("pahyndoi: {path}: {words}\n"));
    assert!(fs::symlink_metadata(&path).unwrap().file_type().is_fifo());
    assert_eq!(names(&folder), ["keys.bin", "pipe"]);
}

/// The shell's number is the tool's: a file and a link have the names that the
/// new file would have.
#[test]
fn new_file_takes_no_name_that_is_taken() {
    let folder = folder("names", &keys(4));
    folder.write("auditor.store", b"old");
    folder.write("target", b"mine");
    let script = "cd \"$0\" && printf mine > .pahyndoi-$$-0.new \
                  && ln -s target .pahyndoi-$$-1.new";
    let output = packed_behind(script, &folder, &["--force"]);
    assert_eq!(output.status.code(), Some(0), "{output:?}");
    assert_eq!(folder.read("auditor.store").len(), STORE_LENGTH);
    let names = names(&folder);
    assert_eq!(names[2..], ["auditor.store", "keys.bin", "target"]);
    for name in [&names[0], &names[1], "target"] {
        assert_eq!(folder.read(name), b"mine", "{name}");
    }
}

#[test]
fn places_that_are_not_there() {
    let folder = folder("odd", &keys(4));
    for more in [&[][..], &["--force"]] {
        let nowhere = folder.path("nowhere/auditor.store");
        let error = pack(&folder, ("--out", &nowhere), more).failed();
        assert!(error.contains("no such file or folder"), "{error}");
        let in_file = folder.path("keys.bin/auditor.store");
        let error = pack(&folder, ("--out", &in_file), more).failed();
        assert!(error.contains("a folder of this path is a file"), "{error}");
        let no_file = folder.path("auditor.store/");
        let error = pack(&folder, ("--out", &no_file), more).failed();
        assert!(error.contains("cannot write it: "), "{error}");
    }
    assert_eq!(names(&folder), ["keys.bin"]);
}

#[test]
fn help_says_what_force_does() {
    let text = joined(&run(&["pack", "--help"]).ended(0));
    for words in ["a new file, its owner's alone", "are left as they are"] {
        assert!(text.contains(words), "{text}");
    }
}
