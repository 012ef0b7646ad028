//! Each refusal of the audit, in words: those of `audit` and of `item`.

use std::thread;

use crate::folder::Folder;
use crate::material::{ENTRY, Files, Part, sealed, sealed_in_parts, small, store};
use crate::run::{assert_narrow, joined};

/// What the audit says for machines, and a lookup does not.
const OF_THE_AUDIT: &str = r#""items":null,"restarts":null,"#;

/// Audits the material after the change: the rule, the item and the words.
fn refused(rule: u32, item: Option<u32>, words: &str, change: impl Fn(&mut Files)) {
    let mut files = small();
    change(&mut files);
    refused_files(rule, item, words, &files);
}

pub fn refused_files(rule: u32, item: Option<u32>, words: &str, files: &Files) {
    // A test's thread has its name: two tests of one rule run side by side.
    let test = thread::current()
        .name()
        .unwrap_or_default()
        .replace("::", "-");
    let folder = Folder::new(&format!("refusals/{test}"));
    files.write(&folder);
    let at_item = item.map_or(String::new(), |item| format!(" at item {item}"));
    let expected = format!("REFUSED by rule {rule}{at_item}: {words}");
    let text = folder.audit(&["--no-picture"]).ended(1);
    assert_eq!(joined(&text), expected);
    let picture = folder.audit(&[]).ended(1);
    assert_narrow(&picture);
    let line = picture.lines().find(|line| line.ends_with("checked."));
    assert_eq!(line, unchecked(rule, item).as_deref());
    let json = folder.audit(&["--json"]).ended(1);
    let item = item.map_or("null".to_string(), |item| item.to_string());
    let start = format!(r#"{{"verdict":"refused",{OF_THE_AUDIT}"rule":{rule},"item":{item},"#);
    assert!(json.starts_with(&start), "{json}");
    looked_up(&folder, &text, &json);
}

/// A lookup says the same, be there such a byte or not.
fn looked_up(folder: &Folder, text: &str, json: &str) {
    let of_the_audit = json.replace(OF_THE_AUDIT, "");
    let (same, files) = of_the_audit.split_once(r#""files":"#).expect("files");
    for (phase, offset) in [("1", "0"), ("0", "8192")] {
        assert_eq!(folder.item(phase, offset, &[]).ended(1), text);
        let nothing = r#""place":null,"chunk":null,"ratchet":null,"area":null,"data":null"#;
        let asked = format!(r#""phase":{phase},"offset":{offset}"#);
        let expected = format!(r#"{same}{asked},{nothing},"files":{files}"#);
        assert_eq!(folder.item(phase, offset, &["--json"]).ended(1), expected);
    }
}

/// What stands below the picture of refused material.
fn unchecked(rule: u32, item: Option<u32>) -> Option<String> {
    match item {
        Some(item) => Some(format!("Items behind item {item} were not checked.")),
        None if rule < 15 => Some("No item was checked.".to_string()),
        None => None,
    }
}

#[test]
fn rule_2() {
    let words = "the store lacks a whole header of kind 1 or 6, has phases, chunk count, ratchet \
                 or set out of range, or is not as long as its header says. The device's store \
                 has 113 bytes, not the 114 of a header and 3 chunks.";
    refused(2, None, words, |files| {
        files.device.pop();
    });
}

#[test]
fn rule_3() {
    let words = "the log memory is not the log capacity times the phases. It has 16,385 bytes, \
                 not the 16,384 of 2 phases; the log capacity is 8,192.";
    refused(3, None, words, |files| files.logs.push(0));
}

#[test]
fn rule_4() {
    let words = "a chunk is burned although an earlier one is not. Chunk 1 is burned and chunk 0 \
                 is not.";
    refused(4, None, words, |files| files.device[18] = 1);
}

#[test]
fn rule_5() {
    let rule = "the lengths are not one for each phase, or one is above the log capacity.";
    let words = format!("{rule} It has 7 bytes, not the 8 of 2 phases.");
    refused(5, None, &words, |files| {
        files.lengths.pop();
    });
    let words = format!("{rule} Too long: phase 2 has 8,193; the log capacity is 8,192.");
    refused(5, None, &words, |files| files.set_lengths(&[30, 8193]));
}

#[test]
fn rule_12() {
    let rule = "the auditor's store is malformed (rule 2) or has a burned chunk.";
    let words = format!("{rule} Chunk 0 of the auditor's store is burned.");
    refused(12, None, &words, |files| {
        files.auditor = files.device.clone();
    });
    let words = format!("{rule} The auditor's store has 0 bytes, and its header takes 18.");
    refused(12, None, &words, |files| files.auditor.clear());
}

#[test]
fn rule_13() {
    let words = "the headers of the two stores differ. They differ in: id, ratchet.";
    refused(13, None, words, |files| {
        files.auditor[1] ^= 1;
        files.auditor[14] += 1;
    });
}

#[test]
fn rule_14() {
    let words = "behind the P burned chunks, a chunk differs between the two stores. P is 2, and \
                 chunk 2 differs.";
    refused(14, None, words, |files| files.device[113] ^= 1);
}

#[test]
fn rule_15() {
    let rule = "the item is no entry, no filler and no restart, or the seal file ends before the \
                item does.";
    for kind in [0, 1, 4, 6, 7] {
        let words = format!(
            "{rule} Damaged from item 1 at byte 50: its kind is {kind}, not 2 (entry), 3 (filler) \
             or 5 (restart). Due is chunk 0, ratchet offset 1, or a restart with the number 1, \
             chunk 1, ratchet offset 0."
        );
        refused(15, Some(1), &words, |files| files.seal[ENTRY] = kind);
    }
    let words = format!(
        "{rule} Damaged from item 5 at byte 250: it takes 41 bytes and the file ends after 40 of \
         them. Due is chunk 1, ratchet offset 2, or a restart with the number 2, chunk 2, ratchet \
         offset 0."
    );
    refused(15, Some(5), &words, |files| {
        files.seal.pop();
    });
}

#[test]
fn rule_16() {
    let words = "the chunk in which the item is due is not below P (P burned chunks). At byte 291 \
                 of the seal file stands an entry of phase 1, offset 0, 10 bytes, chunk 0, ratchet \
                 offset 0. Due is chunk 2, ratchet offset 0. P is 2.";
    refused(16, Some(6), words, |files| {
        files.seal.extend_from_within(..ENTRY);
    });
}

#[test]
fn rule_17() {
    let words = "the item has another chunk number or ratchet offset than is due, or is a restart \
                 where no chunk was cut or with another number than the cut chunk had items. At \
                 byte 50 of the seal file stands an entry of phase 1, offset 10, 10 bytes, chunk \
                 0, ratchet offset 2. Due is chunk 0, ratchet offset 1, or a restart with the \
                 number 1, chunk 1, ratchet offset 0.";
    refused(17, Some(1), words, |files| {
        files.seal.drain(ENTRY..2 * ENTRY);
    });
}

#[test]
fn rule_18() {
    let rule = "the entry names no phase of the store, has a data length outside 1 to the data \
                limit, or reaches past its phase's length. At byte";
    let words = format!(
        "{rule} 200 of the seal file stands an entry of phase 1, offset 20, 10 bytes, chunk 1, \
         ratchet offset 1. The area ends at 30, and the phase's length is 29."
    );
    refused(18, Some(4), &words, |files| files.set_lengths(&[29, 8]));
    for phase in [0, 3, 255] {
        let words = format!(
            "{rule} 0 of the seal file stands an entry of phase {phase}, offset 0, 10 bytes, \
             chunk 0, ratchet offset 0. Phases are 1 to 2."
        );
        refused(18, Some(0), &words, |files| files.seal[1] = phase);
    }
    let words = format!(
        "{rule} 0 of the seal file stands an entry of phase 1, offset 0, 0 bytes, chunk 0, \
         ratchet offset 0. Data lengths are 1 to 512."
    );
    refused(18, Some(0), &words, |files| files.seal[6] = 0);
}

const BELOW: &str = "the entry begins below the end of its phase's covered bytes. At byte";
const BEYOND: &str = "the entry begins beyond the end of its phase's covered bytes. At byte";

/// Gives item 2, an entry of phase 1 behind 10 bytes, another log offset.
fn move_item(files: &mut Files, offset: u32) {
    files.seal[2 * ENTRY + 2..2 * ENTRY + 6].copy_from_slice(&offset.to_le_bytes());
}

#[test]
fn rule_19() {
    for offset in [0, 1, 9] {
        let words = format!(
            "{BELOW} 100 of the seal file stands an entry of phase 1, offset {offset}, 10 bytes, \
             chunk 0, ratchet offset 2. The phase's covered bytes end at 10. Item 0, with offset 0 \
             and 10 bytes, holds byte {offset}."
        );
        refused(19, Some(2), &words, |files| move_item(files, offset));
    }
}

#[test]
fn rule_20() {
    for (offset, gap) in [
        (11, "byte 10"),
        (12, "bytes 10 to 11"),
        (20, "bytes 10 to 19"),
    ] {
        let words = format!(
            "{BEYOND} 100 of the seal file stands an entry of phase 1, offset {offset}, 10 bytes, \
             chunk 0, ratchet offset 2. The phase's covered bytes end at 10. No earlier item holds \
             {gap}."
        );
        refused(20, Some(2), &words, |files| move_item(files, offset));
    }
}

/// A device appends 10 bytes, is opened with this length and appends these data.
fn reopened(length: u32, data: &[u8]) -> Files {
    let (first, second) = ([(1, &b"0123456789"[..])], [(1, data)]);
    let parts: [Part; 2] = [(&[0], &first), (&[length], &second)];
    sealed_in_parts(store(1, 2, 1), &parts)
}

/// The bytes written again are those that stand there, so all tags are right.
#[test]
fn rule_19_of_a_device_that_writes_bytes_again() {
    let words = format!(
        "{BELOW} 50 of the seal file stands an entry of phase 1, offset 7, 3 bytes, chunk 1, \
         ratchet offset 0. The phase's covered bytes end at 10. Item 0, with offset 0 and 10 \
         bytes, holds byte 7."
    );
    refused_files(19, Some(1), &words, &reopened(7, b"789"));
}

#[test]
fn device_that_goes_on_at_the_covered_end() {
    let folder = Folder::new("refusals/covered-end");
    reopened(10, b"abc").write(&folder);
    let text = folder.audit(&["--no-picture"]).ended(0);
    assert_eq!(text, "ACCEPTED: 2 items.\n");
}

#[test]
fn rule_20_of_a_device_that_leaves_a_gap() {
    let words = format!(
        "{BEYOND} 50 of the seal file stands an entry of phase 1, offset 13, 3 bytes, chunk 1, \
         ratchet offset 0. The phase's covered bytes end at 10. No earlier item holds bytes 10 to \
         12."
    );
    refused_files(20, Some(1), &words, &reopened(13, b"abc"));
}

/// The first entry of a phase begins at 0.
#[test]
fn rule_20_at_the_first_entry() {
    let files = sealed(store(1, 1, 3), &[100], &[(1, &b"x"[..]); 3]);
    let words = format!(
        "{BEYOND} 0 of the seal file stands an entry of phase 1, offset 100, 1 byte, chunk 0, \
         ratchet offset 0. The phase's covered bytes end at 0. No earlier item holds bytes 0 to 99."
    );
    refused_files(20, Some(0), &words, &files);
}

#[test]
fn rule_21() {
    let words = "the item's tag is not the one that its key gives for its message. At byte 150 of \
                 the seal file stands an entry of phase 2, offset 4, 4 bytes, chunk 1, ratchet \
                 offset 0.";
    refused(21, Some(3), words, |files| files.logs[8192 + 4] ^= 1);
}

#[test]
fn rule_22() {
    let rule = "after the last item chunk P at offset 0 is not what is due (P burned chunks).";
    let words = format!(
        "{rule} The seal file has 5 items. Due after them is chunk 1, ratchet offset 2, and P is \
         2: it would have to be chunk 2, ratchet offset 0. Chunk 1 is half used."
    );
    refused(22, None, &words, |files| files.seal.truncate(5 * ENTRY));
    let words = format!(
        "{rule} The seal file has 3 items. Due after them is chunk 1, ratchet offset 0, and P is \
         2: it would have to be chunk 2, ratchet offset 0."
    );
    refused(22, None, &words, |files| files.seal.truncate(3 * ENTRY));
    let words = format!(
        "{rule} The seal file has 0 items. Due after them is chunk 0, ratchet offset 0, and P is \
         2: it would have to be chunk 2, ratchet offset 0."
    );
    refused(22, None, &words, |files| files.seal.clear());
}

#[test]
fn rule_23() {
    let words = "some phase's log is not covered up to its length. Of phase 2, 8 of 9 bytes are \
                 covered.";
    refused(23, None, words, |files| files.set_lengths(&[30, 9]));
}
