//! `pahyndoi audit` and `pahyndoi item` of stores that carry a set. What is
//! refused is in `set_refusals.rs`.

use pahyndoi::model::Set;

use crate::folder::Folder;
use crate::material::{SETS, sealed, set, small_with, store_with};
use crate::run::{assert_narrow, joined};

fn folder_of(name: &str, set: Set) -> Folder {
    let folder = Folder::new(&format!("sets/{name}"));
    small_with(set).write(&folder);
    folder
}

const LEGEND: &str = "\
Coverage of the logs. The covered bytes of a phase run from 0 on, and an item
that begins where they end covers its own; fillers and restarts have none. Each
cell of a bar stands for equally many bytes, give or take one: a-z the item at
its first byte (after z comes a), < if it begins below the covered end, > if
beyond, . no item, - an item on a part of the cell, * bytes that items share,
! the refused item.
";

#[test]
fn accepted() {
    for set in SETS {
        let folder = folder_of("accepted", set);
        let text = folder.audit(&["--no-picture"]).ended(0);
        assert_eq!(text, "ACCEPTED: 6 items.\n");
        let json = folder.audit(&["--json"]).ended(0);
        let start = r#"{"verdict":"accepted","items":6,"restarts":[],"rule":null,"item":null,"#;
        assert!(json.starts_with(start), "{json}");
    }
}

#[test]
fn pictures() {
    let pictures = [
        (
            set(16, 1, 512),
            "Phase 1: 1 item, 1 of 1 byte covered\n  |a|\n  a item 0: 0-0\n".to_string(),
        ),
        (
            set(16, 4096, 4096),
            format!(
                "Phase 1: 1 item, 4,096 of 4,096 bytes covered\n  |{}|\n  \
                 a item 0: 0-4095\n",
                "a".repeat(64)
            ),
        ),
    ];
    for (set, phase_1) in pictures {
        let expected = format!(
            "\
ACCEPTED: 6 items.

{LEGEND}
{phase_1}
Phase 2: 3 items, 3 of 3 bytes covered
  |abc|
  a item 1: 0-0             b item 2: 1-1             c item 3: 2-2

Besides these: 2 fillers.
"
        );
        assert_eq!(folder_of("picture", set).audit(&[]).ended(0), expected);
    }
}

/// Where the device's store can't be read, the auditor's says how to read.
#[test]
fn picture_by_the_auditors_set() {
    for set in SETS {
        let folder = folder_of("auditors", set);
        let whole = folder.audit(&[]).ended(0);
        let mut device = folder.read("device.store");
        device.pop();
        folder.write("device.store", &device);
        let text = folder.audit(&[]).ended(1);
        assert!(text.starts_with("REFUSED by rule 2:"), "{text}");
        let (_, picture) = whole.split_once("Coverage").expect("a picture");
        let expected = format!("{picture}No item was checked.\n");
        assert!(text.ends_with(&expected), "{text}");
    }
}

#[test]
fn picture_of_refused_material() {
    let set = set(16, 4096, 4096);
    let folder = folder_of("refused", set);
    let mut seal = folder.read("seal.bin");
    seal[2 * set.entry_length() - 1] ^= 1;
    seal.drain(2 * set.entry_length()..3 * set.entry_length());
    folder.write("seal.bin", &seal);
    let text = folder.audit(&[]).ended(1);
    assert!(text.starts_with("REFUSED by rule 21 at item 1:"), "{text}");
    assert!(text.contains("  |!.>|\n"), "{text}");
    assert!(
        text.contains("gap: no item covers 1-1 (1 byte)\n"),
        "{text}"
    );
    assert!(text.ends_with("Items behind item 1 were not checked.\n"));
}

/// What is sealed in the largest log, each entry as long as can be.
fn largest(name: &str) -> Folder {
    let longest = [&[b'x'; 4095][..], b"!"].concat();
    let entries = [(1, &longest[..]); 16];
    let folder = Folder::new(&format!("sets/{name}"));
    let store = store_with(set(17, 4096, 65_536), 1, 1, 16);
    sealed(store, &[0], &entries).write(&folder);
    folder
}

#[test]
fn picture_of_the_largest_log() {
    let text = largest("largest-picture").audit(&[]).ended(0);
    assert_narrow(&text);
    let heading = "Phase 1: 16 items, 65,536 of 65,536 bytes covered\n";
    assert!(text.contains(heading), "{text}");
    let bar = "aaaabbbbccccddddeeeeffffgggghhhhiiiijjjjkkkkllllmmmmnnnnoooopppp";
    assert!(text.contains(&format!("  |{bar}|\n")), "{text}");
    assert!(
        text.contains("l item 11: 45056-49151\n  and 4 more items\n"),
        "{text}"
    );
}

#[test]
fn item_in_the_largest_log() {
    let folder = largest("largest-item");
    let text = folder.item("1", "65535", &[]).ended(0);
    assert_narrow(&text);
    let words = "Item 15 sealed the byte at offset 65,535 of phase 1. At byte 525 of the seal file \
                 stands an entry of phase 1, offset 61,440, 4,096 bytes, chunk 0, ratchet offset 15. \
                 Its data,";
    assert!(joined(&text).starts_with(words), "{text}");
    let rows = |mark: &str| text.lines().filter(|line| line.contains(mark)).count();
    assert_eq!((rows("|"), rows(" 78 78 ")), (64, 256));
    let mark = text
        .lines()
        .position(|line| line.trim() == "^^")
        .expect("a mark");
    let (row, mark) = (text.lines().nth(mark - 1), text.lines().nth(mark));
    assert_eq!(
        mark.and_then(|mark| row?.get(mark.find('^')?..)),
        Some("21")
    );
    assert_eq!(row.map(|row| &row[..9]), Some("  65520  "));
    let json = folder.item("1", "61439", &["--json"]).ended(0);
    let found = r#""item":14,"reason":null,"detail":null,"phase":1,"offset":61439,"place":490,"chunk":0,"ratchet":14,"area":{"phase":1,"offset":57344,"length":4096},"data":{"text":"xxx"#;
    assert!(json.contains(found), "{json}");
    assert!(json.contains("x!\",\"hexadecimal\":\"7878"), "{json}");
    assert!(json.contains("7821\",\"index\":4095},"), "{json}");
}

/// The first and the last byte of every area.
#[test]
fn items_of_every_set() {
    for set in SETS {
        let folder = folder_of("items", set);
        let last = set.data_limit - 1;
        for (phase, offset, number) in [(1, 0, 0), (1, last, 0), (2, 0, 1), (2, 1, 2), (2, 2, 3)] {
            let text = folder
                .item(&phase.to_string(), &offset.to_string(), &[])
                .ended(0);
            assert_narrow(&text);
            let start = format!("Item {number} sealed the byte at offset ");
            let place = format!(
                " At byte {} of the seal file stands an entry of phase {phase}, ",
                number * set.entry_length()
            );
            assert!(joined(&text).starts_with(&start), "{text}");
            assert!(joined(&text).contains(&place), "{text}");
        }
        let text = folder.item("1", &set.data_limit.to_string(), &[]).ended(1);
        assert!(text.starts_with("REFUSED by rule 24:"), "{text}");
    }
}
