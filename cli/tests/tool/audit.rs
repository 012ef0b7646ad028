//! `pahyndoi audit`, its files and its output.

use std::fs::{self, File};

use crate::folder::Folder;
use crate::material::{ENTRY, FILLER, sealed, small, store};
use crate::run::{joined, run};

const LIMIT: u64 = 64 << 20;

fn small_folder(name: &str) -> Folder {
    let folder = Folder::new(&format!("audit/{name}"));
    small().write(&folder);
    folder
}

#[test]
fn accepted_with_picture() {
    let expected = "\
ACCEPTED: 6 items.

Coverage of the logs. The covered bytes of a phase run from 0 on, and an item
that begins where they end covers its own; fillers and restarts have none. Each
cell of a bar stands for equally many bytes, give or take one: a-z the item at
its first byte (after z comes a), < if it begins below the covered end, > if
beyond, . no item, - an item on a part of the cell, * bytes that items share,
! the refused item.

Phase 1: 3 items, 30 of 30 bytes covered
  |aaaaaaaaaabbbbbbbbbbcccccccccc|
  a item 0: 0-9             b item 2: 10-19           c item 4: 20-29

Phase 2: 2 items, 8 of 8 bytes covered
  |aaaabbbb|
  a item 1: 0-3             b item 3: 4-7

Besides these: 1 filler.
";
    assert_eq!(small_folder("picture").audit(&[]).ended(0), expected);
}

#[test]
fn accepted_without_picture() {
    let folder = small_folder("no-picture");
    let text = folder.audit(&["--no-picture"]).ended(0);
    assert_eq!(text, "ACCEPTED: 6 items.\n");
}

#[test]
fn nothing_sealed_is_accepted() {
    let folder = Folder::new("audit/nothing");
    sealed(store(1, 1, 1), &[0], &[]).write(&folder);
    let text = folder.audit(&["--no-picture"]).ended(0);
    assert_eq!(text, "ACCEPTED: 0 items.\n");
}

#[test]
fn json_of_accepted_material() {
    let folder = small_folder("json");
    let whole = folder.whole();
    let expected = format!(
        "{{\"verdict\":\"accepted\",\"items\":6,\"restarts\":[],\"rule\":null,\"item\":null,\
         \"reason\":null,\"detail\":null,\"files\":{{\"device\":\"{whole}/device.store\",\
         \"auditor\":\"{whole}/auditor.store\",\"logs\":\"{whole}/logs.bin\",\
         \"lengths\":\"{whole}/lengths.bin\",\"seal\":\"{whole}/seal.bin\"}}}}\n"
    );
    assert_eq!(folder.audit(&["--json"]).ended(0), expected);
}

#[test]
fn json_of_refused_material_is_escaped() {
    let folder = small_folder("json-refused");
    let mut seal = folder.read("seal.bin");
    seal[ENTRY - 1] ^= 1;
    let odd = folder.write("a \"seal\"\n\\.bin", &seal);
    let text = folder.audit(&["--json", "--seal", &odd]).ended(1);
    let expected = r#"{"verdict":"refused","items":null,"restarts":null,"rule":21,"item":0,"reason":"the item's tag is not the one that its key gives for its message","detail":"At byte 0 of the seal file stands an entry of phase 1, offset 0, 10 bytes, chunk 0, ratchet offset 0.","files":{"#;
    assert!(text.starts_with(expected), "{text}");
    assert!(
        text.ends_with("/a \\\"seal\\\"\\u000a\\\\\\\\.bin\"}}\n"),
        "{text}"
    );
    assert_eq!(text.lines().count(), 1);
}

/// Item 2 with another log offset than 10, where the covered bytes end.
#[test]
fn json_of_an_item_off_the_covered_end() {
    for (offset, start) in [
        (
            9,
            r#"{"verdict":"refused","items":null,"restarts":null,"rule":19,"item":2,"reason":"the entry begins below the end of its phase's covered bytes","detail":"At byte 100 of the seal file stands an entry of phase 1, offset 9, 10 bytes, chunk 0, ratchet offset 2. The phase's covered bytes end at 10. Item 0, with offset 0 and 10 bytes, holds byte 9.","files":{"#,
        ),
        (
            11,
            r#"{"verdict":"refused","items":null,"restarts":null,"rule":20,"item":2,"reason":"the entry begins beyond the end of its phase's covered bytes","detail":"At byte 100 of the seal file stands an entry of phase 1, offset 11, 10 bytes, chunk 0, ratchet offset 2. The phase's covered bytes end at 10. No earlier item holds byte 10.","files":{"#,
        ),
    ] {
        let folder = small_folder("json-covered-end");
        let mut seal = folder.read("seal.bin");
        seal[2 * ENTRY + 2] = offset;
        folder.write("seal.bin", &seal);
        let text = folder.audit(&["--json"]).ended(1);
        assert!(text.starts_with(start), "{text}");
    }
}

#[test]
fn flags_stand_for_a_folder() {
    let folder = small_folder("flags");
    let flags = [
        ("--device", "device.store"),
        ("--auditor", "auditor.store"),
        ("--logs", "logs.bin"),
        ("--lengths", "lengths.bin"),
        ("--seal", "seal.bin"),
    ];
    let joined_flags = flags.map(|(flag, name)| format!("{flag}={}", folder.path(name)));
    let arguments = [&["audit".to_string()], &joined_flags[..]].concat();
    assert!(run(&arguments).ended(0).starts_with("ACCEPTED: 6 items."));
    let error = run(&arguments[..4]).failed();
    assert!(error.contains("give a folder, or a file with --lengths, --seal"));
}

#[test]
fn flags_override_the_folder() {
    let folder = small_folder("override");
    let seal = folder.read("seal.bin");
    let other = folder.write("other.bin", &seal[..seal.len() - FILLER]);
    let text = folder.audit(&["--seal", &other]).ended(1);
    assert!(text.starts_with("REFUSED by rule 22:"), "{text}");
}

#[test]
fn picture_of_refused_material() {
    let folder = small_folder("refused");
    let mut seal = folder.read("seal.bin");
    seal[3 * ENTRY - 1] ^= 1;
    seal.drain(3 * ENTRY..4 * ENTRY);
    folder.write("seal.bin", &seal);
    let text = folder.audit(&[]).ended(1);
    assert!(text.starts_with("REFUSED by rule 21 at item 2:"), "{text}");
    assert!(
        text.contains("  |aaaaaaaaaa!!!!!!!!!!cccccccccc|\n"),
        "{text}"
    );
    assert!(text.contains("  |aaaa....|\n"), "{text}");
    assert!(
        text.contains("gap: no item covers 4-7 (4 bytes)\n"),
        "{text}"
    );
    assert!(text.ends_with("Items behind item 2 were not checked.\n"));
}

/// The picture of phase 1, and its end, where item 2 has this log offset in
/// the place of 10.
fn picture_with_offset(name: &str, offset: u8, rule: u32, phase_1: &str) {
    let folder = small_folder(name);
    let mut seal = folder.read("seal.bin");
    seal[2 * ENTRY + 2] = offset;
    folder.write("seal.bin", &seal);
    let text = folder.audit(&[]).ended(1);
    let start = format!("REFUSED by rule {rule} at item 2:");
    assert!(text.starts_with(&start), "{text}");
    let drawn = format!("\n\nPhase 1: 3 items, 10 of 30 bytes covered\n{phase_1}\nPhase 2:");
    assert!(text.contains(&drawn), "{text}");
    assert!(text.ends_with("Items behind item 2 were not checked.\n"));
}

#[test]
fn picture_of_an_item_below_the_covered_end() {
    let phase_1 = "  |aaaaaaaaa*!!!!!!!!!.>>>>>>>>>>|
  gap: no item covers 19-19 (1 byte)
  begin below the covered end: 1 item (2)
  begin beyond the covered end: 1 item (4)
  a item 0: 0-9             ! item 2: 9-18            > item 4: 20-29
";
    picture_with_offset("below", 9, 19, phase_1);
}

#[test]
fn picture_of_an_item_beyond_the_covered_end() {
    let phase_1 = "  |aaaaaaaaaa.!!!!!!!!!*>>>>>>>>>|
  gap: no item covers 10-10 (1 byte)
  begin beyond the covered end: 2 items (2, 4)
  a item 0: 0-9             ! item 2: 11-20           > item 4: 20-29
";
    picture_with_offset("beyond", 11, 20, phase_1);
}

#[test]
fn picture_ends_at_damage() {
    let folder = small_folder("damage");
    let mut seal = folder.read("seal.bin");
    seal[3 * ENTRY] = 0;
    folder.write("seal.bin", &seal);
    let text = folder.audit(&[]).ended(1);
    assert!(
        text.contains("  |aaaaaaaaaabbbbbbbbbb..........|\n"),
        "{text}"
    );
    let damage = "Damaged from item 3 at byte 150: its kind is 0, not 2 (entry), 3 (filler) or 5 \
                  (restart). Due is chunk 1, ratchet offset 0.";
    assert!(joined(&text).contains(damage), "{text}");
}

#[test]
fn missing_file() {
    let folder = small_folder("missing");
    fs::remove_file(folder.path("logs.bin")).unwrap();
    let error = folder.audit(&[]).failed();
    let path = folder.path("logs.bin");
    assert_eq!(error, format!("pahyndoi: {path}: no such file or folder\n"));
}

#[test]
fn missing_folder() {
    let folder = Folder::new("audit/missing-folder");
    let error = run(&["audit", &folder.path("nowhere")]).failed();
    assert!(error.ends_with("device.store: no such file or folder\n"));
}

#[test]
fn folder_in_the_place_of_a_file() {
    let folder = small_folder("directory");
    let error = folder.audit(&["--seal", folder.whole()]).failed();
    let expected = format!("pahyndoi: {}: is a folder, not a file\n", folder.whole());
    assert_eq!(error, expected);
}

#[test]
fn file_in_the_place_of_a_folder() {
    let folder = small_folder("file");
    let error = run(&["audit", &folder.path("seal.bin")]).failed();
    let expected = "seal.bin/device.store: a folder of this path is a file\n";
    assert!(error.ends_with(expected), "{error}");
}

/// Every file in turn, brought to this length, is refused by its rule.
fn resized_files(rules: &[(&str, u32)], length: usize) {
    for (name, rule) in rules {
        let folder = small_folder(&format!("{length}-bytes-of-{name}"));
        let mut bytes = folder.read(name);
        bytes.resize(length, 1);
        folder.write(name, &bytes);
        let text = folder.audit(&[]).ended(1);
        assert!(
            text.starts_with(&format!("REFUSED by rule {rule}:")),
            "{text}"
        );
    }
}

const RULES_OF_LENGTH: [(&str, u32); 4] = [
    ("device.store", 2),
    ("auditor.store", 12),
    ("logs.bin", 3),
    ("lengths.bin", 5),
];

#[test]
fn empty_files() {
    resized_files(&RULES_OF_LENGTH, 0);
    resized_files(&[("seal.bin", 22)], 0);
}

/// Longer than any store, log memory or list can be: still the audit's answer.
#[test]
fn long_files() {
    resized_files(&RULES_OF_LENGTH, 100_000);
}

#[test]
fn longest_seal_file_is_answered_and_a_longer_one_is_not_read() {
    let folder = small_folder("longest");
    let file = File::options()
        .write(true)
        .open(folder.path("seal.bin"))
        .unwrap();
    file.set_len(LIMIT).unwrap();
    let text = folder.audit(&["--no-picture"]).ended(1);
    assert!(text.starts_with("REFUSED by rule 15 at item 6:"), "{text}");
    file.set_len(LIMIT + 1).unwrap();
    let error = folder.audit(&[]).failed();
    let expected = "seal.bin: has more than the 67,108,864 bytes that are read\n";
    assert!(error.ends_with(expected), "{error}");
    fs::remove_file(folder.path("seal.bin")).unwrap();
}

#[cfg(target_os = "linux")]
#[test]
fn endless_file_is_not_read_on() {
    let error = small_folder("endless")
        .audit(&["--seal", "/dev/zero"])
        .failed();
    assert!(error.contains("/dev/zero: has more than"), "{error}");
}
