//! A device and its standby, whose store has equal chunks and another id, with
//! the same entries sealed by both.

use std::ops::Range;

use crate::folder::Folder;
use crate::material::{ENTRY, Files, set, small_on, store, store_with};
use crate::run::joined;

const ID: Range<usize> = 1..9;
const LONGEST_TAG: usize = 32;
const WORDS: &str = "the item's tag is not the one that its key gives for its message.";

/// Device and standby of either kind, each with the length of its tags.
fn pairs() -> [(Files, Files, usize); 2] {
    let stores = [
        (store(2, 3, 3), LONGEST_TAG),
        (store_with(set(16, 10, 512), 2, 3, 3), 16),
    ];
    stores.map(|(unused, tag_length)| {
        let mut other = unused.clone();
        other[ID].copy_from_slice(b"standby ");
        (small_on(unused), small_on(other), tag_length)
    })
}

/// The places of the five entries and the filler behind them.
fn places(seal: &[u8], tag_length: usize) -> impl Iterator<Item = Range<usize>> {
    let entry = ENTRY - LONGEST_TAG + tag_length;
    let end = seal.len();
    (0..6).map(move |item| item * entry..end.min((item + 1) * entry))
}

fn verdict(name: &str, files: &Files, status: i32) -> String {
    let folder = Folder::new(&format!("standby/{name}"));
    files.write(&folder);
    joined(&folder.audit(&["--no-picture"]).ended(status))
}

#[test]
fn each_is_accepted_by_itself() {
    for (device, standby, _) in pairs() {
        for files in [device, standby] {
            assert_eq!(verdict("itself", &files, 0), "ACCEPTED: 6 items.");
        }
    }
}

/// At ratchet offset 0 the key is the same chunk, above it another key.
#[test]
fn no_item_of_the_standby_is_one_of_the_device() {
    for (device, standby, tag_length) in pairs() {
        for (item, place) in places(&device.seal, tag_length).enumerate() {
            let mut altered = device.clone();
            altered.seal[place.clone()].copy_from_slice(&standby.seal[place.clone()]);
            let head = ..place.end - tag_length;
            assert_eq!(altered.seal[head], device.seal[head]);
            let text = verdict("item", &altered, 1);
            let expected = format!("REFUSED by rule 21 at item {item}: {WORDS} At byte ");
            assert!(text.starts_with(&expected), "{text}");
        }
    }
}

/// The logs are equal, the stores but for their ids.
#[test]
fn its_material_is_not_the_device_s() {
    for (device, standby, _) in pairs() {
        assert_eq!(standby.logs, device.logs);
        let sealed_by_it = Files {
            seal: standby.seal.clone(),
            ..device.clone()
        };
        let text = verdict("material", &sealed_by_it, 1);
        assert!(text.starts_with("REFUSED by rule 21 at item 0: "), "{text}");
        let beside_it = Files {
            auditor: device.auditor,
            ..standby
        };
        let expected = "REFUSED by rule 13: the headers of the two stores differ. They differ \
                        in: id.";
        assert_eq!(verdict("material", &beside_it, 1), expected);
    }
}
