//! What an intruder does to the material of the evening.

use pahyndoi::Refusal;

use super::super::evidence::Evidence;
use super::super::item::{Item, items};
use super::junction::{Junction, SET};

/// The item of 07:00 on the side road.
pub const TARGET: usize = 22;

/// The first item of the last burned chunk, of 23:00 on the main road. What
/// stands up to it can't be dropped.
pub const LAST_SAFE: usize = 82;

/// An item in the chunk before, of 22:00 on the main road.
pub const TOO_FAR: usize = 79;

/// Where the tens of the count stand in its line, "07:00 side road  82".
const TENS_IN_LINE: usize = 17;
const CHUNK_IN_ENTRY: std::ops::Range<usize> = 10..18;

/// What an intruder has besides the evening's material.
pub struct AtHand {
    pub noon: Evidence,
    /// Of the same counts, sealed under equal chunks and another id.
    pub standby: Evidence,
}

pub struct Act {
    pub words: &'static str,
    /// Alters the evening's material.
    pub alter: fn(&mut Evidence, &AtHand),
}

pub const ACTS: [Act; 12] = [
    Act {
        words: "alters a log byte: the side road's 82 of 07:00 becomes 12",
        alter: alter_log,
    },
    Act {
        words: "drops that entry's item, number 22, from the seal file",
        alter: drop_item,
    },
    Act {
        words: "exchanges the items 22 and 23",
        alter: exchange_items,
    },
    Act {
        words: "exchanges them and gives each the other's chunk and ratchet numbers",
        alter: exchange_and_renumber,
    },
    Act {
        words: "puts the standby's item 22 in its place: equal chunks and data, another id",
        alter: put_in_the_standbys,
    },
    Act {
        words: "cuts the last 20 bytes off the seal file",
        alter: cut_bytes,
    },
    Act {
        words: "cuts the last item off the seal file",
        alter: cut_item,
    },
    Act {
        words: "puts back the logs, lengths and seal file of noon",
        alter: put_back_logs,
    },
    Act {
        words: "puts back the store of noon, copied then, under the evening's logs",
        alter: put_back_store,
    },
    Act {
        words: "puts back everything of noon, the copied store included",
        alter: put_back_all,
    },
    Act {
        words: "has the controller, drops all behind item 82 and makes up a power cut",
        alter: drop_behind_the_last_safe,
    },
    Act {
        words: "has the controller, drops all from item 79 on and makes up a power cut",
        alter: drop_too_far,
    },
];

/// The item of this number, which every seal file of the day has.
fn item(evidence: &Evidence, number: usize) -> Option<Item> {
    items(SET, &evidence.seal).flatten().nth(number)
}

fn alter_log(evening: &mut Evidence, _: &AtHand) {
    let area = item(evening, TARGET).and_then(|item| item.area());
    if let Some(area) = area {
        let log = SET.log_start(area.phase);
        evening.logs[log + area.offset as usize + TENS_IN_LINE] = b'1';
    }
}

pub fn drop_item(evening: &mut Evidence, _: &AtHand) {
    if let Some(item) = item(evening, TARGET) {
        evening.seal.drain(item.place);
    }
}

/// Both are entries, so the second begins where the first ends.
fn exchange_items(evening: &mut Evidence, _: &AtHand) {
    if let Some(first) = item(evening, TARGET) {
        let length = first.place.len();
        let both = first.place.start..first.place.end + length;
        evening.seal[both].rotate_left(length);
    }
}

fn exchange_and_renumber(evening: &mut Evidence, at_hand: &AtHand) {
    exchange_items(evening, at_hand);
    if let Some(first) = item(evening, TARGET) {
        let (before, after) = evening.seal.split_at_mut(first.place.end);
        let one = &mut before[first.place.start..][CHUNK_IN_ENTRY];
        one.swap_with_slice(&mut after[CHUNK_IN_ENTRY]);
    }
}

/// Of equal entries, so both stand at the same place.
fn put_in_the_standbys(evening: &mut Evidence, at_hand: &AtHand) {
    if let Some(Item { place, .. }) = item(evening, TARGET) {
        evening.seal[place.clone()].copy_from_slice(&at_hand.standby.seal[place]);
    }
}

fn cut_bytes(evening: &mut Evidence, _: &AtHand) {
    let length = evening.seal.len().saturating_sub(20);
    evening.seal.truncate(length);
}

fn cut_item(evening: &mut Evidence, _: &AtHand) {
    if let Some(last) = items(SET, &evening.seal).flatten().last() {
        evening.seal.truncate(last.place.start);
    }
}

fn put_back_logs(evening: &mut Evidence, AtHand { noon, .. }: &AtHand) {
    evening.logs = noon.logs.clone();
    evening.lengths = noon.lengths.clone();
    evening.seal = noon.seal.clone();
}

fn put_back_store(evening: &mut Evidence, AtHand { noon, .. }: &AtHand) {
    evening.device = noon.device.clone();
}

fn drop_behind_the_last_safe(evening: &mut Evidence, _: &AtHand) {
    drop_from(LAST_SAFE + 1, evening);
}

fn drop_too_far(evening: &mut Evidence, _: &AtHand) {
    drop_from(TOO_FAR, evening);
}

/// Leaves so many items, and goes on as if the power had gone behind them.
fn drop_from(count: usize, evening: &mut Evidence) {
    let left: Vec<Item> = items(SET, &evening.seal).flatten().take(count).collect();
    if let Ok(altered) = made_up_cut(Junction::taken(evening, &left)) {
        *evening = altered;
    }
}

/// With a chunk that the junction has not burned yet.
fn made_up_cut(mut junction: Junction) -> Result<Evidence, Refusal> {
    junction.open()?;
    junction.restart(junction.due().offset as u32)?;
    junction.close()?;
    Ok(junction.evidence())
}

fn put_back_all(evening: &mut Evidence, at_hand: &AtHand) {
    put_back_logs(evening, at_hand);
    put_back_store(evening, at_hand);
}
