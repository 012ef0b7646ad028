//! Refusals of the audit where a store carries a set, in words: those of `audit`
//! and of `item`.

use pahyndoi::model::Set;

use crate::material::{Files, SETS, sealed, set, sets_out_of_range, small_with, store, store_with};
use crate::refusals::refused_files;

const SMALLEST: Set = SETS[0];
const FULL: Set = SETS[1];

/// Audits the material after the change: the rule, the item and the words.
fn refused(set: Set, rule: u32, item: Option<u32>, words: &str, change: impl Fn(&mut Files)) {
    let mut files = small_with(set);
    change(&mut files);
    refused_files(rule, item, words, &files);
}

const RULE_2: &str = "the store lacks a whole header of kind 1 or 6, has phases, chunk count, \
                      ratchet or set out of range, or is not as long as its header says.";

#[test]
fn rule_2_by_the_set() {
    for (set, reason) in sets_out_of_range() {
        let words = format!("{RULE_2} The device's store {reason}.");
        let device = store_with(set, 2, 3, 3);
        refused(SMALLEST, 2, None, &words, |files| {
            files.device = device.clone()
        });
    }
}

#[test]
fn rule_2_by_length_and_kind() {
    let size = |length| format!("has {length} bytes, not the 123 of a header and 3 chunks");
    for (length, reason) in [
        (0, "has 0 bytes, and its header takes 18".to_string()),
        (17, "has 17 bytes, and its header takes 27".to_string()),
        (26, "has 26 bytes, and its header takes 27".to_string()),
        (27, size(27)),
        (114, size(114)),
        (122, size(122)),
        (124, size(124)),
    ] {
        let words = format!("{RULE_2} The device's store {reason}.");
        refused(SMALLEST, 2, None, &words, |files| {
            files.device.resize(length, 7)
        });
    }
    let words = format!("{RULE_2} The device's store has kind 5, and a store has kind 1 or 6.");
    refused(SMALLEST, 2, None, &words, |files| files.device[0] = 5);
    let words =
        format!("{RULE_2} The device's store has 123 bytes, not the 114 of a header and 3 chunks.");
    refused(SMALLEST, 2, None, &words, |files| files.device[0] = 1);
}

#[test]
fn rule_3() {
    for (set, words) in [
        (
            SETS[0],
            "It has 1,025 bytes, not the 1,024 of 2 phases; the log capacity is 512.",
        ),
        (
            SETS[1],
            "It has 8,193 bytes, not the 8,192 of 2 phases; the log capacity is 4,096.",
        ),
        (
            SETS[2],
            "It has 131,073 bytes, not the 131,072 of 2 phases; the log capacity is 65,536.",
        ),
        (
            SETS[3],
            "It has 16,385 bytes, not the 16,384 of 2 phases; the log capacity is 8,192.",
        ),
    ] {
        let words = format!("the log memory is not the log capacity times the phases. {words}");
        refused(set, 3, None, &words, |files| files.logs.push(0));
    }
}

#[test]
fn rule_4() {
    let words = "a chunk is burned although an earlier one is not. Chunk 1 is burned and chunk 0 \
                 is not.";
    refused(SMALLEST, 4, None, words, |files| files.device[27] = 1);
}

#[test]
fn rule_5() {
    let rule = "the lengths are not one for each phase, or one is above the log capacity.";
    for (set, words) in [
        (
            SETS[0],
            "Too long: phase 1 has 513, phase 2 has 513; the log capacity is 512.",
        ),
        (
            SETS[1],
            "Too long: phase 1 has 4,097, phase 2 has 4,097; the log capacity is 4,096.",
        ),
        (
            SETS[2],
            "Too long: phase 1 has 65,537, phase 2 has 65,537; the log capacity is 65,536.",
        ),
    ] {
        let over = set.log_capacity + 1;
        let words = format!("{rule} {words}");
        refused(set, 5, None, &words, |files| {
            files.set_lengths(&[over, over])
        });
    }
    let words = format!("{rule} It has 4 bytes, not the 8 of 2 phases.");
    refused(SMALLEST, 5, None, &words, |files| files.set_lengths(&[1]));
}

#[test]
fn rule_12() {
    let rule = "the auditor's store is malformed (rule 2) or has a burned chunk.";
    for (set, reason) in sets_out_of_range() {
        let words = format!("{rule} The auditor's store {reason}.");
        let auditor = store_with(set, 2, 3, 3);
        refused(SMALLEST, 12, None, &words, |files| {
            files.auditor = auditor.clone()
        });
    }
    let words = format!("{rule} Chunk 2 of the auditor's store is burned.");
    refused(SMALLEST, 12, None, &words, |files| {
        files.auditor[91..].fill(0)
    });
}

const RULE_13: &str = "the headers of the two stores differ. They differ in:";

/// The kind counts, though the set in effect is the same.
#[test]
fn rule_13_between_the_kinds() {
    let words = format!("{RULE_13} kind. The device's store has kind 6, the auditor's kind 1.");
    refused(Set::COMMON, 13, None, &words, |files| {
        files.auditor = store(2, 3, 3)
    });
    let words = format!("{RULE_13} kind. The device's store has kind 1, the auditor's kind 6.");
    let mut files = sealed(store(2, 3, 3), &[0, 0], &[(1, b"x")]);
    files.auditor = store_with(Set::COMMON, 2, 3, 3);
    refused_files(13, None, &words, &files);
    let words = format!(
        "{RULE_13} kind, tag length, data limit, log capacity. The device's store has kind 6, the \
         auditor's kind 1."
    );
    refused(SMALLEST, 13, None, &words, |files| {
        files.auditor = store(2, 3, 3)
    });
}

#[test]
fn rule_13_between_sets() {
    for (other, names) in [
        (set(17, 4096, 4096), "tag length"),
        (set(16, 4095, 4096), "data limit"),
        (set(16, 4096, 4097), "log capacity"),
        (set(32, 1, 65_536), "tag length, data limit, log capacity"),
    ] {
        let words = format!("{RULE_13} {names}.");
        let auditor = store_with(other, 2, 3, 3);
        refused(FULL, 13, None, &words, |files| {
            files.auditor = auditor.clone()
        });
    }
    let words = format!("{RULE_13} id, log capacity.");
    refused(FULL, 13, None, &words, |files| {
        files.auditor[1] ^= 1;
        files.auditor[23] ^= 1;
    });
}

#[test]
fn rule_14() {
    let words = "behind the P burned chunks, a chunk differs between the two stores. P is 2, and \
                 chunk 2 differs.";
    for index in [91, 122] {
        refused(SMALLEST, 14, None, words, |files| files.device[index] ^= 1);
    }
}

#[test]
fn rule_15() {
    let rule = "the item is no entry, no filler and no restart, or the seal file ends before the \
                item does.";
    let words = format!(
        "{rule} Damaged from item 5 at byte 161: it takes 25 bytes and the file ends after 24 of \
         them. Due is chunk 1, ratchet offset 2, or a restart with the number 2, chunk 2, ratchet \
         offset 0."
    );
    refused(SMALLEST, 15, Some(5), &words, |files| {
        files.seal.pop();
    });
    let words = format!(
        "{rule} Damaged from item 3 at byte 102: it takes 34 bytes and the file ends after 33 of \
         them. Due is chunk 1, ratchet offset 0."
    );
    refused(FULL, 15, Some(3), &words, |files| {
        files.seal.truncate(4 * 34 - 1)
    });
    let words = format!(
        "{rule} Damaged from item 1 at byte 34: its kind is 7, not 2 (entry), 3 (filler) or 5 \
         (restart). Due is chunk 0, ratchet offset 1, or a restart with the number 1, chunk 1, \
         ratchet offset 0."
    );
    refused(FULL, 15, Some(1), &words, |files| files.seal[34] = 7);
}

#[test]
fn rule_16() {
    let words = "the chunk in which the item is due is not below P (P burned chunks). At byte 186 \
                 of the seal file stands an entry of phase 1, offset 0, 1 byte, chunk 0, ratchet \
                 offset 0. Due is chunk 2, ratchet offset 0. P is 2.";
    refused(SMALLEST, 16, Some(6), words, |files| {
        files.seal.extend_from_within(..34);
    });
}

#[test]
fn rule_17() {
    let words = "the item has another chunk number or ratchet offset than is due, or is a restart \
                 where no chunk was cut or with another number than the cut chunk had items. At \
                 byte 34 of the seal file stands an entry of phase 2, offset 1, 1 byte, chunk 0, \
                 ratchet offset 2. Due is chunk 0, ratchet offset 1, or a restart with the number \
                 1, chunk 1, ratchet offset 0.";
    refused(SMALLEST, 17, Some(1), words, |files| {
        files.seal.drain(34..68);
    });
}

const RULE_18: &str = "the entry names no phase of the store, has a data length outside 1 to the \
                       data limit, or reaches past its phase's length. At byte";

/// One byte more than the longest data, where the log has it.
#[test]
fn rule_18_by_the_data_limit() {
    for (set, length, limit) in [
        (set(16, 1, 512), "2", "1"),
        (set(16, 4095, 4096), "4,096", "4,095"),
        (set(32, 4096, 65_536), "4,097", "4,096"),
        (Set::COMMON, "513", "512"),
    ] {
        let words = format!(
            "{RULE_18} 0 of the seal file stands an entry of phase 1, offset 0, {length} bytes, \
             chunk 0, ratchet offset 0. Data lengths are 1 to {limit}."
        );
        let longer = set.data_limit + 1;
        refused(set, 18, Some(0), &words, |files| {
            files.seal[6..10].copy_from_slice(&longer.to_le_bytes());
            files.set_lengths(&[longer, 3]);
        });
    }
}

#[test]
fn rule_18_by_the_length() {
    let words = format!(
        "{RULE_18} 0 of the seal file stands an entry of phase 1, offset 0, 4,096 bytes, chunk 0, \
         ratchet offset 0. The area ends at 4,096, and the phase's length is 4,095."
    );
    refused(FULL, 18, Some(0), &words, |files| {
        files.set_lengths(&[4095, 3])
    });
    let words = format!(
        "{RULE_18} 34 of the seal file stands an entry of phase 3, offset 0, 1 byte, chunk 0, \
         ratchet offset 1. Phases are 1 to 2."
    );
    refused(FULL, 18, Some(1), &words, |files| files.seal[35] = 3);
}

/// Entries of one byte, the last one at another log offset than that reached.
#[test]
fn rules_19_and_20() {
    for set in SETS {
        let entry = set.entry_length();
        let stands = |offset| {
            format!(
                "At byte {} of the seal file stands an entry of phase 2, offset {offset}, 1 byte, \
                 chunk 1, ratchet offset 0. The phase's covered bytes end at 2.",
                3 * entry
            )
        };
        let words = format!(
            "the entry begins below the end of its phase's covered bytes. {} Item 2, with offset 1 \
             and 1 byte, holds byte 1.",
            stands(1)
        );
        refused(set, 19, Some(3), &words, |files| {
            files.seal[3 * entry + 2] = 1
        });
        let words = format!(
            "the entry begins beyond the end of its phase's covered bytes. {} No earlier item \
             holds byte 2.",
            stands(3)
        );
        refused(set, 20, Some(3), &words, |files| {
            files.seal[3 * entry + 2] = 3;
            files.set_lengths(&[set.data_limit, 4]);
        });
    }
}

/// Data longer than any of kind 1, and where they end.
#[test]
fn rules_19_and_20_behind_long_data() {
    let longest = [5; 4000];
    let entries = [(1, &longest[..]), (1, b"y")];
    let mut files = sealed(store_with(SETS[2], 1, 1, 2), &[0], &entries);
    files.set_lengths(&[4002]);
    let stands = |offset| {
        format!(
            "At byte 50 of the seal file stands an entry of phase 1, offset {offset}, 1 byte, \
             chunk 0, ratchet offset 1. The phase's covered bytes end at 4,000."
        )
    };
    files.seal[50 + 2..50 + 6].copy_from_slice(&3999_u32.to_le_bytes());
    let words = format!(
        "the entry begins below the end of its phase's covered bytes. {} Item 0, with offset 0 and \
         4,000 bytes, holds byte 3,999.",
        stands("3,999")
    );
    refused_files(19, Some(1), &words, &files);
    files.seal[50 + 2..50 + 6].copy_from_slice(&4001_u32.to_le_bytes());
    let words = format!(
        "the entry begins beyond the end of its phase's covered bytes. {} No earlier item holds \
         byte 4,000.",
        stands("4,001")
    );
    refused_files(20, Some(1), &words, &files);
}

/// Opened with bytes in the log that no item covers.
#[test]
fn rule_20_at_the_first_entry() {
    let files = sealed(store_with(SETS[2], 1, 1, 1), &[60_000], &[(1, b"x")]);
    let words = "the entry begins beyond the end of its phase's covered bytes. At byte 0 of the \
                 seal file stands an entry of phase 1, offset 60,000, 1 byte, chunk 0, ratchet \
                 offset 0. The phase's covered bytes end at 0. No earlier item holds bytes 0 to \
                 59,999.";
    refused_files(20, Some(0), words, &files);
}

/// The first and the last byte of a tag of each length, and of the longest data.
#[test]
fn rule_21() {
    let rule = "the item's tag is not the one that its key gives for its message. At byte";
    for set in SETS {
        let (entry, capacity) = (set.entry_length(), set.log_capacity as usize);
        let words = format!(
            "{rule} {} of the seal file stands an entry of phase 2, offset 2, 1 byte, chunk 1, \
             ratchet offset 0.",
            3 * entry
        );
        for index in [3 * entry + 18, 4 * entry - 1] {
            refused(set, 21, Some(3), &words, |files| files.seal[index] ^= 1);
        }
        refused(set, 21, Some(3), &words, |files| {
            files.logs[capacity + 2] ^= 1
        });
        let words = format!(
            "{rule} {} of the seal file stands a filler, chunk 1, ratchet offset 2.",
            4 * entry + set.filler_length()
        );
        refused(set, 21, Some(5), &words, |files| {
            *files.seal.last_mut().expect("a byte") ^= 1;
        });
    }
    let words = format!(
        "{rule} 0 of the seal file stands an entry of phase 1, offset 0, 4,096 bytes, chunk 0, \
         ratchet offset 0."
    );
    for index in [0, 4095] {
        refused(FULL, 21, Some(0), &words, |files| files.logs[index] ^= 1);
    }
}

#[test]
fn rule_22() {
    let words = "after the last item chunk P at offset 0 is not what is due (P burned chunks). \
                 The seal file has 4 items. Due after them is chunk 1, ratchet offset 1, and P is \
                 2: it would have to be chunk 2, ratchet offset 0. Chunk 1 is half used.";
    for set in SETS {
        let entries = 4 * set.entry_length();
        refused(set, 22, None, words, |files| files.seal.truncate(entries));
    }
}

#[test]
fn rule_23() {
    for (set, length, capacity) in [(SETS[0], 3, "512"), (SETS[2], 3, "65,536")] {
        let words = format!(
            "some phase's log is not covered up to its length. Of phase 2, {length} of {capacity} \
             bytes are covered."
        );
        let (first, all) = (set.data_limit, set.log_capacity);
        refused(set, 23, None, &words, |files| {
            files.set_lengths(&[first, all])
        });
    }
}
