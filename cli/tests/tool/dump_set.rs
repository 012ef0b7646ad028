//! `pahyndoi dump` of a seal file, by the set of its store and for machines.

use pahyndoi::model::Set;

use crate::folder::Folder;
use crate::material::{Files, SETS, set, small_with, store_with};
use crate::run::{Run, assert_narrow, joined, run};

const HEADING: &str = "   item  kind    phase      offset      length       chunk     ratchet  tag";

/// Dumps the seal file as sealed with the store in this one of the files.
fn dump_with(name: &str, store: &str, files: &Files) -> Run {
    let folder = written(name, files);
    let (seal, store) = (folder.path("seal.bin"), folder.path(store));
    run(&["dump", &seal, "--store", &store])
}

fn written(name: &str, files: &Files) -> Folder {
    let folder = Folder::new(&format!("dump-set/{name}"));
    files.write(&folder);
    folder
}

/// Where the items of [`small_with`] end: four entries, then two fillers.
fn ends(set: Set) -> [usize; 6] {
    let (entry, filler) = (set.entry_length(), set.filler_length());
    let last = 4 * entry;
    [
        entry,
        2 * entry,
        3 * entry,
        last,
        last + filler,
        last + 2 * filler,
    ]
}

#[test]
fn items_of_every_set() {
    for set in SETS {
        let files = small_with(set);
        let length = usize::from(set.tag_length);
        let tags = ends(set).map(|end| hexadecimal(&files.seal[end - length..][..4]));
        let expected = format!(
            "{HEADING}
      0  entry       1           0  {:>10}           0           0  {}
      1  entry       2           0           1           0           1  {}
      2  entry       2           1           1           0           2  {}
      3  entry       2           2           1           1           0  {}
      4  filler      -           -           -           1           1  {}
      5  filler      -           -           -           1           2  {}
6 items in {} bytes.
",
            set.data_limit,
            tags[0],
            tags[1],
            tags[2],
            tags[3],
            tags[4],
            tags[5],
            ends(set)[5],
        );
        assert_eq!(dump_with("sets", "device.store", &files).ended(0), expected);
        assert_eq!(
            dump_with("sets", "auditor.store", &files).ended(0),
            expected
        );
    }
}

#[test]
fn short_end_of_every_set() {
    for set in SETS {
        let mut files = small_with(set);
        files.seal.pop();
        let text = dump_with("short-set", "device.store", &files).ended(1);
        assert_narrow(&text);
        assert_eq!(
            text.lines().filter(|line| line.contains("filler")).count(),
            1
        );
        let filler = set.filler_length();
        let expected = format!(
            "Damaged from item 5 at byte {}: it takes {filler} bytes and the file ends after {} \
             of them.",
            ends(set)[4],
            filler - 1
        );
        assert!(joined(&text).ends_with(&expected), "{text}");
        assert!(!text.contains("--store"), "{text}");
    }
}

/// Short tags can't be told from damage.
#[test]
fn short_tags_without_their_store() {
    let folder = written("short-tags", &small_with(set(16, 1, 512)));
    let text = run(&["dump", &folder.path("seal.bin")]).ended(1);
    assert_narrow(&text);
    let expected = "Without --store, tags are read as of 32 bytes. Damaged from item 1 at byte 50: \
                    its kind is 0, not 2 (entry), 3 (filler) or 5 (restart).";
    assert!(joined(&text).ends_with(expected), "{text}");
}

/// The items of [`small_with`] for machines, up to this number.
fn items_json(set: Set, seal: &[u8], count: usize) -> String {
    let length = usize::from(set.tag_length);
    let areas = [(1, 0, set.data_limit), (2, 0, 1), (2, 1, 1), (2, 2, 1)];
    let places = [0].into_iter().chain(ends(set)).zip(ends(set));
    let items = places.enumerate().map(|(number, (place, end))| {
        let area = areas.get(number).map_or("null".to_string(), |(phase, offset, length)| {
            format!(r#"{{"phase":{phase},"offset":{offset},"length":{length}}}"#)
        });
        let kind = if number < areas.len() { "entry" } else { "filler" };
        let (chunk, ratchet) = (number / 3, number % 3);
        let tag = hexadecimal(&seal[end - length..end]);
        format!(
            r#"{{"item":{number},"kind":"{kind}","place":{place},"chunk":{chunk},"ratchet":{ratchet},"area":{area},"number":null,"tag":"{tag}"}}"#
        )
    });
    items.take(count).collect::<Vec<_>>().join(",")
}

fn hexadecimal(bytes: &[u8]) -> String {
    bytes.iter().map(|byte| format!("{byte:02x}")).collect()
}

fn set_json(set: Set) -> String {
    format!(
        r#"{{"tag_length":{},"data_limit":{},"log_capacity":{}}}"#,
        set.tag_length, set.data_limit, set.log_capacity
    )
}

#[test]
fn json_of_every_set() {
    for set in SETS {
        let files = small_with(set);
        let folder = written("json", &files);
        let (seal, store) = (folder.path("seal.bin"), folder.path("device.store"));
        let json = run(&["dump", "--json", "--store", &store, &seal]).ended(0);
        let expected = format!(
            "{{\"content\":\"seal\",\"set\":{},\"items\":[{}],\"detail\":null}}\n",
            set_json(set),
            items_json(set, &files.seal, 6)
        );
        assert_eq!(json, expected);
    }
}

#[test]
fn json_without_a_store() {
    let files = small_with(Set::COMMON);
    let folder = written("json-alone", &files);
    let seal = folder.path("seal.bin");
    let json = run(&["dump", &seal, "--json"]).ended(0);
    let items = items_json(Set::COMMON, &files.seal, 6);
    assert!(
        json.contains(&format!("\"items\":[{items}],\"detail\":null}}\n")),
        "{json}"
    );
    assert!(json.contains(&set_json(Set::COMMON)), "{json}");
}

#[test]
fn json_of_damage() {
    let [smallest, ..] = SETS;
    let mut files = small_with(smallest);
    files.seal[ends(smallest)[3]] = 9;
    let folder = written("json-damage", &files);
    let (seal, store) = (folder.path("seal.bin"), folder.path("device.store"));
    let json = run(&["dump", &seal, "--store", &store, "--json"]).ended(1);
    let expected = format!(
        "{{\"content\":\"seal\",\"set\":{},\"items\":[{}],\"detail\":\"Damaged from item 4 at \
         byte 136: its kind is 9, not 2 (entry), 3 (filler) or 5 (restart).\"}}\n",
        set_json(smallest),
        items_json(smallest, &files.seal, 4)
    );
    assert_eq!(json, expected);
    let json = run(&["dump", &seal, "--json"]).ended(1);
    let detail = "\"detail\":\"Without --store, tags are read as of 32 bytes. Damaged from item 1 ";
    assert!(json.contains(detail), "{json}");
    assert_eq!(json.lines().count(), 1);
}

#[test]
fn json_of_an_empty_file() {
    let folder = Folder::new("dump-set/json-empty");
    let json = run(&["dump", &folder.write("seal.bin", &[]), "--json"]).ended(0);
    assert!(json.ends_with(",\"items\":[],\"detail\":null}\n"), "{json}");
}

#[test]
fn wrong_stores() {
    let mut files = small_with(set(16, 1, 512));
    files.auditor = store_with(set(15, 1, 512), 2, 3, 3);
    let error = dump_with("wrong-store", "auditor.store", &files).failed();
    let expected =
        "auditor.store: this store names 15 as its tag length, and 16 to 32 are possible\n";
    assert!(error.ends_with(expected), "{error}");
    files.auditor = files.seal.clone();
    let error = dump_with("no-store", "auditor.store", &files).failed();
    let expected = "auditor.store: this store has kind 2, and a store has kind 1 or 6\n";
    assert!(error.ends_with(expected), "{error}");
    let folder = Folder::new("dump-set/missing-store");
    let seal = folder.write("seal.bin", &files.seal);
    let error = run(&["dump", &seal, "--store", &folder.path("none")]).failed();
    assert!(error.ends_with("none: no such file or folder\n"), "{error}");
}

#[test]
fn wrong_arguments() {
    let wrong: [(&[&str], &str); 4] = [
        (&["seal.bin", "--store"], "--store needs a value"),
        (&["--store=a", "--store=b"], "--store is given twice"),
        (&["--store=a"], "a key store or a seal file is missing"),
        (&["seal.bin", "--json=yes"], "unknown flag '--json=yes'"),
    ];
    for (arguments, reason) in wrong {
        let error = run(&[&["dump"], arguments].concat()).failed();
        let expected = format!("pahyndoi: {reason}\nTry 'pahyndoi dump --help'.\n");
        assert_eq!(error, expected);
    }
}

/// What is said to be sealed with a store is no store itself.
#[test]
fn store_in_the_place_of_a_seal_file() {
    let mut files = small_with(set(16, 1, 512));
    files.seal = files.device.clone();
    let text = dump_with("two-stores", "device.store", &files).ended(1);
    let damage =
        "Damaged from item 0 at byte 0: its kind is 6, not 2 (entry), 3 (filler) or 5 (restart).";
    assert!(joined(&text).ends_with(damage), "{text}");
}
