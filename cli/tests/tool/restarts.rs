//! Restarts after a loss of power: what `audit`, `item` and `dump` say of them.

use pahyndoi::Refusal;
use pahyndoi::model::Set;

use crate::folder::Folder;
use crate::material::{Device, ENTRY, FILLER, Files, RESTART, SETS, store, store_with};
use crate::refusals::refused_files;
use crate::run::{assert_narrow, joined, run};

/// Two phases, three chunks of three keys. Two entries, a cut, the restart and
/// two entries more, which use up the second chunk: five items. Logs of 20 and
/// 8 bytes.
fn cut() -> Files {
    cut_on(store(2, 3, 3))
}

fn cut_on(unused: Vec<u8>) -> Files {
    let mut device = Device::new(unused);
    device.open(&[0, 0]);
    device.append_all(&[(1, b"0123456789"), (2, b"side")]);
    device.lose_power();
    assert_eq!(device.restart(2), Ok(3));
    device.append_all(&[(1, b"abcdefghij"), (2, b"road")]);
    device.files()
}

fn written(name: &str, files: &Files) -> Folder {
    let folder = Folder::new(&format!("restarts/{name}"));
    files.write(&folder);
    folder
}

/// Where the restart begins and ends.
const START: usize = 2 * ENTRY;
const END: usize = START + RESTART;

#[test]
fn accepted_in_words() {
    let text = written("words", &cut()).audit(&["--no-picture"]).ended(0);
    let expected = "\
ACCEPTED: 5 items.
  1 restart, as after a loss of power: item 2 (chunk 0 had 2 items).
";
    assert_eq!(text, expected);
}

#[test]
fn accepted_for_machines() {
    let json = written("json", &cut()).audit(&["--json"]).ended(0);
    let start = r#"{"verdict":"accepted","items":5,"restarts":[{"item":2,"chunk":1,"number":2}],"rule":null,"#;
    assert!(json.starts_with(start), "{json}");
}

#[test]
fn picture() {
    let text = written("picture", &cut()).audit(&[]).ended(0);
    assert_narrow(&text);
    let logs = "\
Phase 1: 2 items, 20 of 20 bytes covered
  |aaaaaaaaaabbbbbbbbbb|
  a item 0: 0-9             b item 3: 10-19

Phase 2: 2 items, 8 of 8 bytes covered
  |aaaabbbb|
  a item 1: 0-3             b item 4: 4-7

Besides these: 0 fillers.
Restarts: 1 item (2).
";
    assert!(text.ends_with(logs), "{text}");
}

/// Ten cuts, each right behind the restart of the one before: six are told of
/// in words, eight by number below the picture, all for machines.
#[test]
fn many_restarts() {
    let mut device = Device::new(store(1, 11, 2));
    device.open(&[0]);
    device.append_all(&[(1, b"x")]);
    for chunk in 1..=10 {
        device.lose_power();
        assert_eq!(device.restart(1), Ok(2 * chunk));
    }
    device.close();
    let folder = written("many", &device.files());
    let text = folder.audit(&[]).ended(0);
    assert_narrow(&text);
    let expected = "ACCEPTED: 12 items. 10 restarts, as after a loss of power: item 1 (chunk 0 \
                    had 1 item), item 2 (chunk 1 had 1 item), item 3 (chunk 2 had 1 item), item 4 \
                    (chunk 3 had 1 item), item 5 (chunk 4 had 1 item), item 6 (chunk 5 had 1 \
                    item) and 4 more. Coverage";
    assert!(joined(&text).starts_with(expected), "{text}");
    let below = "\nBesides these: 1 filler.\nRestarts: 10 items (1, 2, 3, 4, 5, 6, 7, 8, ...).\n";
    assert!(text.ends_with(below), "{text}");
    let json = folder.audit(&["--json"]).ended(0);
    assert_eq!(json.matches(r#","number":1}"#).count(), 10, "{json}");
}

#[test]
fn table() {
    let files = cut();
    let folder = written("dump", &files);
    let seal = folder.path("seal.bin");
    let text = run(&["dump", &seal]).ended(0);
    let tag: String = files.seal[END - 32..END - 28]
        .iter()
        .map(|byte| format!("{byte:02x}"))
        .collect();
    let row =
        format!("      2  restart     -                number 2           1           0  {tag}\n");
    assert!(text.contains(&row), "{text}");
    assert!(text.ends_with("5 items in 245 bytes.\n"), "{text}");
}

/// With every tag length.
#[test]
fn items_for_machines() {
    for set in SETS {
        // The smallest set takes data of one byte.
        let mut device = Device::new(store_with(set, 1, 2, 3));
        device.open(&[0]);
        device.append_all(&[(1, b"x")]);
        device.lose_power();
        device.restart(1).expect("a restart");
        device.close();
        let files = device.files();
        let folder = written("dump-json", &files);
        let (seal, device) = (folder.path("seal.bin"), folder.path("device.store"));
        let json = run(&["dump", "--json", &seal, "--store", &device]).ended(0);
        let (start, length) = (set.entry_length(), usize::from(set.tag_length));
        let tag: String = files.seal[start + 13..start + 13 + length]
            .iter()
            .map(|byte| format!("{byte:02x}"))
            .collect();
        let item = format!(
            r#"{{"item":1,"kind":"restart","place":{start},"chunk":1,"ratchet":0,"area":null,"number":1,"tag":"{tag}"}}"#
        );
        assert!(json.contains(&item), "{json}");
        let text = folder.audit(&["--no-picture"]).ended(0);
        assert!(
            text.starts_with("ACCEPTED: 4 items.\n  1 restart, "),
            "{text}"
        );
    }
}

/// Behind the restart an item's number is no longer that of its key.
#[test]
fn lookup_behind_a_restart() {
    let folder = written("item", &cut());
    let text = folder.item("1", "10", &[]).ended(0);
    let expected = "Item 3 sealed the byte at offset 10 of phase 1. At byte 145 of the seal file \
                    stands an entry of phase 1, offset 10, 10 bytes, chunk 1, ratchet offset 1. \
                    Its data,";
    assert!(joined(&text).starts_with(expected), "{text}");
    let json = folder.item("2", "7", &["--json"]).ended(0);
    let expected = r#""item":4,"reason":null,"detail":null,"phase":2,"offset":7,"place":195,"chunk":1,"ratchet":2,"#;
    assert!(json.contains(expected), "{json}");
}

/// A cut behind a close, and one before anything is sealed, leave nothing open.
#[test]
fn cuts_without_a_restart() {
    let mut device = Device::new(store(1, 2, 3));
    device.open(&[0]);
    device.lose_power();
    assert_eq!(device.restart(1), Err(Refusal(27)));
    device.append_all(&[(1, b"x")]);
    device.close();
    device.lose_power();
    device.append_all(&[(1, b"y")]);
    device.close();
    let text = written("no-restart", &device.files())
        .audit(&["--no-picture"])
        .ended(0);
    assert_eq!(text, "ACCEPTED: 6 items.\n");
}

#[test]
fn words_of_27() {
    let words = "refused by rule 27: restart is given a number outside 1 to N - 1 (N keys from \
                 each chunk), a state whose offset is not 0, or a store with no burned chunk";
    let mut device = Device::new(store(1, 2, 3));
    device.open(&[0]);
    device.append_all(&[(1, b"x")]);
    for number in [0, 1, 3, u32::MAX] {
        let refusal = device.restart(number).expect_err("a refusal");
        assert_eq!(refusal.to_string(), words);
    }
}

const RULE_17: &str = "the item has another chunk number or ratchet offset than is due, or is a \
                       restart where no chunk was cut or with another number than the cut chunk \
                       had items.";
const DUE: &str = "Due is chunk 0, ratchet offset 2, or a restart with the number 2, chunk 1, \
                   ratchet offset 0.";

fn refused(rule: u32, item: u32, words: &str, change: impl Fn(&mut Files)) {
    let mut files = cut();
    change(&mut files);
    refused_files(rule, Some(item), words, &files);
}

/// Every field beside its value, and one far from it.
#[test]
fn rule_17_by_each_field() {
    for number in [0, 1, 3, u32::MAX] {
        let words = format!(
            "{RULE_17} At byte 100 of the seal file stands a restart with the number {number}, \
             chunk 1, ratchet offset 0. {DUE}"
        );
        refused(17, 2, &words, |files| put(files, 9, number));
    }
    for chunk in [0, 2, u32::MAX] {
        let words = format!(
            "{RULE_17} At byte 100 of the seal file stands a restart with the number 2, chunk \
             {chunk}, ratchet offset 0. {DUE}"
        );
        refused(17, 2, &words, |files| put(files, 1, chunk));
    }
    for offset in [1, 2, u32::MAX] {
        let words = format!(
            "{RULE_17} At byte 100 of the seal file stands a restart with the number 2, chunk 1, \
             ratchet offset {offset}. {DUE}"
        );
        refused(17, 2, &words, |files| put(files, 5, offset));
    }
}

/// Puts a number at this place of the restart.
fn put(files: &mut Files, place: usize, number: u32) {
    let place = START + place;
    files.seal[place..place + 4].copy_from_slice(&number.to_le_bytes());
}

#[test]
fn rule_17_where_the_restart_is_dropped() {
    let words = format!(
        "{RULE_17} At byte 100 of the seal file stands an entry of phase 1, offset 10, 10 bytes, \
         chunk 1, ratchet offset 1. {DUE}"
    );
    refused(17, 2, &words, |files| {
        files.seal.drain(START..END);
    });
}

/// Where offset 0 is due: first of all, and behind a chunk that is used up.
#[test]
fn rule_17_where_nothing_was_cut() {
    let stands = "of the seal file stands a restart with the number 2, chunk 1, ratchet offset 0.";
    let words = format!(
        "{RULE_17} At byte 0 {stands} Due is chunk 0, ratchet offset 0, and no restart: no chunk \
         is half used."
    );
    refused(17, 0, &words, |files| {
        files.seal.drain(..START);
    });
    let mut device = Device::new(store(1, 2, 3));
    device.open(&[0]);
    device.append_all(&[(1, b"x"), (1, b"y")]);
    device.close();
    assert_eq!(device.restart(2), Ok(3));
    device.close();
    let words = format!(
        "{RULE_17} At byte 141 {stands} Due is chunk 1, ratchet offset 0, and no restart: no \
         chunk is half used."
    );
    refused_files(17, Some(3), &words, &device.files());
}

/// A device that goes on without a restart, or restarts with another number.
#[test]
fn rule_17_of_a_device() {
    let mut device = Device::new(store(1, 2, 3));
    device.open(&[0]);
    device.append_all(&[(1, b"x"), (1, b"y")]);
    device.lose_power();
    device.append_all(&[(1, b"z")]);
    device.close();
    let words = format!(
        "{RULE_17} At byte 100 of the seal file stands an entry of phase 1, offset 2, 1 byte, \
         chunk 1, ratchet offset 0. {DUE}"
    );
    refused_files(17, Some(2), &words, &device.files());
    let mut device = Device::new(store(1, 2, 3));
    device.open(&[0]);
    device.append_all(&[(1, b"x"), (1, b"y")]);
    device.lose_power();
    assert_eq!(device.restart(1), Ok(3));
    device.close();
    let words = format!(
        "{RULE_17} At byte 100 of the seal file stands a restart with the number 1, chunk 1, \
         ratchet offset 0. {DUE}"
    );
    refused_files(17, Some(2), &words, &device.files());
}

const RULE_16: &str =
    "the chunk in which the item is due is not below P (P burned chunks). At byte";

/// The chunk after the one due, or the one due where no chunk is half used.
#[test]
fn rule_16() {
    let stands = "of the seal file stands a restart with the number 2, chunk 1, ratchet offset 0.";
    let words = format!("{RULE_16} 100 {stands} {DUE} P is 1.");
    let chunk = 18 + 32..18 + 64;
    refused(16, 2, &words, |files| {
        files.device[chunk.clone()].copy_from_slice(&files.auditor[chunk.clone()]);
    });
    let words = format!(
        "{RULE_16} 245 {stands} Due is chunk 2, ratchet offset 0, and no restart: no chunk is half \
         used. P is 2."
    );
    refused(16, 5, &words, |files| {
        files.seal.extend_from_within(START..END);
    });
}

#[test]
fn rule_15_within_a_restart() {
    for left in [1, 44] {
        let words = format!(
            "the item is no entry, no filler and no restart, or the seal file ends before the item \
             does. Damaged from item 2 at byte 100: it takes 45 bytes and the file ends after \
             {left} of them. {DUE}"
        );
        refused(15, 2, &words, |files| files.seal.truncate(START + left));
    }
}

#[test]
fn rule_21_of_a_restart() {
    let words = "the item's tag is not the one that its key gives for its message. At byte 100 of \
                 the seal file stands a restart with the number 2, chunk 1, ratchet offset 0.";
    for byte in [START + 13, END - 1] {
        refused(21, 2, words, |files| files.seal[byte] ^= 1);
    }
}

/// While a restart is due, a close in its place or not.
#[test]
fn rule_22_before_the_restart() {
    let words = "after the last item chunk P at offset 0 is not what is due (P burned chunks). \
                 The seal file has 2 items. Due after them is chunk 0, ratchet offset 2, and P is \
                 1: it would have to be chunk 1, ratchet offset 0. Chunk 0 is half used.";
    let mut device = Device::new(store(2, 3, 3));
    device.open(&[0, 0]);
    device.append_all(&[(1, b"0123456789"), (2, b"side")]);
    device.lose_power();
    refused_files(22, None, words, &device.files());
    device.close();
    refused_files(22, None, words, &device.files());
}

/// Six entries, two chunks burned: somebody takes the controller, with the third
/// chunk, drops the last of them and makes up a cut.
fn dropped(left: usize, number: u32) -> Files {
    let entries: [(u8, &[u8]); 6] = [(1, b"x"); 6];
    let mut device = Device::new(store(1, 3, 3));
    device.open(&[0]);
    device.append_all(&entries);
    let mut taken = Device::taken(&device.files(), left * ENTRY, &[left as u32]);
    assert_eq!(taken.restart(number), Ok(6));
    taken.close();
    taken.files()
}

/// The first entry of the last burned chunk is left, and more or nothing with it.
#[test]
fn items_dropped_behind_the_first_of_the_last_burned_chunk() {
    for (left, number, words) in [
        (
            5,
            2,
            "ACCEPTED: 8 items. 1 restart, as after a loss of power: item 5 (chunk 1 had 2 items).",
        ),
        (
            4,
            1,
            "ACCEPTED: 7 items. 1 restart, as after a loss of power: item 4 (chunk 1 had 1 item).",
        ),
    ] {
        let folder = written("dropped", &dropped(left, number));
        let text = folder.audit(&["--no-picture"]).ended(0);
        assert_eq!(joined(&text), words);
        let seal_length = folder.read("seal.bin").len();
        assert_eq!(seal_length, left * ENTRY + RESTART + 2 * FILLER);
    }
}

#[test]
fn items_dropped_before() {
    for number in [1, 2] {
        let words = format!(
            "{RULE_17} At byte 150 of the seal file stands a restart with the number {number}, \
             chunk 2, ratchet offset 0. Due is chunk 1, ratchet offset 0, and no restart: no chunk \
             is half used."
        );
        refused_files(17, Some(3), &words, &dropped(3, number));
        let words = format!(
            "{RULE_17} At byte 100 of the seal file stands a restart with the number {number}, \
             chunk 2, ratchet offset 0. {DUE}"
        );
        refused_files(17, Some(2), &words, &dropped(2, number));
    }
}

/// A restart of the chunk that is due, sealed with the key that is left.
#[test]
fn burned_chunk_can_not_be_had() {
    let mut files = dropped(2, 2);
    put(&mut files, 1, 1);
    let words = "the item's tag is not the one that its key gives for its message. At byte 100 of \
                 the seal file stands a restart with the number 2, chunk 1, ratchet offset 0.";
    refused_files(21, Some(2), words, &files);
}

/// The smallest card.
#[test]
fn restart_of_the_smallest_set() {
    let smallest: Set = SETS[0];
    let mut device = Device::new(store_with(smallest, 1, 2, 2));
    device.open(&[0]);
    device.append_all(&[(1, b"x")]);
    device.lose_power();
    assert_eq!(device.restart(1), Ok(2));
    device.close();
    let files = device.files();
    assert_eq!(files.seal.len(), 34 + 29 + 25);
    let text = written("smallest", &files)
        .audit(&["--no-picture"])
        .ended(0);
    let expected = "ACCEPTED: 3 items. 1 restart, as after a loss of power: item 1 (chunk 0 had 1 \
                    item).";
    assert_eq!(joined(&text), expected);
}
