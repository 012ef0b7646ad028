//! An intruder who took a device behind a history: who holds the keys that it
//! had left, and no others.

use pahyndoi::model::Outcome::{Dropped, Intact};
use pahyndoi::model::{
    Head, KEY_LENGTH, Position, chunk, is_burned, key_at, next_key, plain_hmac, position,
};

use crate::accounts::Recorded;
use crate::answer::split;
use crate::compromises::Compromise;
use crate::device::{Device, front};
use crate::places::items;
use crate::presentation::{Presentation, length_bytes};
use crate::random::Random;
use crate::tally::Tally;

const HELD: &str = "keys held";
const GONE: &str = "keys gone";
const LOST: &str = "keys ahead that a refused open took";
const SEALED_ANEW: &str = "dropped data sealed anew, accepted";
const CHANGED: &str = "dropped data changed and sealed anew, accepted";

/// What is counted.
pub const COUNTED: [&str; 5] = [HELD, GONE, LOST, SEALED_ANEW, CHANGED];

/// What is counted of histories of any length.
pub const TIGHT: &str = "all items from some m on dropped, accepted";

/// Of the m tried in one history, the most at either end.
const TRIED_AT_ENDS: usize = 6;

pub type Key = [u8; KEY_LENGTH];

/// Fails where b could be larger: from every m on, b or more, who holds the next
/// chunk can drop the device's items.
pub fn check_tight(random: &mut Random, tally: &mut Tally, recorded: &Recorded) {
    let compromise = Compromise::new(recorded);
    let keys = compromise.next_keys();
    let (safe, count) = (compromise.safe(), compromise.items().len());
    for kept in safe..count {
        let is_tried = kept < safe + TRIED_AT_ENDS || kept + TRIED_AT_ENDS >= count;
        if is_tried && !keys.is_empty() {
            compromise.drop_from(random, tally, kept, &keys);
        }
    }
}

impl Compromise<'_> {
    /// The key at a place, made of what the device had left; none where that is
    /// gone.
    pub fn key(&self, place: Position) -> Option<Key> {
        if place.chunk >= self.header.chunk_count || place.offset >= self.ratchet() {
            return None;
        }
        let Device { material, state } = &self.recorded.device;
        let at = state.position;
        let (first, key) = match at.offset > 0 && at.chunk == place.chunk {
            true => (at.offset, state.held_key),
            false => (0, chunk(&material.store, place.chunk)),
        };
        if is_burned(&key) || place.offset < first {
            return None;
        }
        let step = |key: Key, offset| next_key(plain_hmac, &key, offset, &self.header);
        Some((first + 1..=place.offset).fold(key, step))
    }

    /// All keys of the first chunk that is left; none where there is no such chunk.
    fn next_keys(&self) -> Vec<Key> {
        let first = self.key(Position {
            chunk: self.burned(),
            offset: 0,
        });
        let mut keys: Vec<Key> = first.into_iter().collect();
        for offset in 1..self.ratchet() {
            let step = |key: &Key| next_key(plain_hmac, key, offset, &self.header);
            keys.extend(keys.last().map(step));
        }
        keys
    }

    /// The device has the keys at the places that the claim calls held, but for
    /// those ahead in a chunk where a refused open took the state.
    pub fn check_keys(&self, tally: &mut Tally) {
        for number in 0..self.header.chunk_count * self.ratchet() {
            let place = position(number, self.ratchet());
            let is_lost = self.account.is_state_lost() && place.chunk < self.burned();
            let counted = match self.account.is_held(place) {
                true if is_lost => LOST,
                true => HELD,
                false => GONE,
            };
            let first = chunk(&self.recorded.start.store, place.chunk);
            let key = key_at(plain_hmac, first, place.offset, &self.header);
            let expected = (counted == HELD).then_some(key);
            assert_eq!(self.key(place), expected, "{place:?}");
            tally.count(counted, 1);
        }
    }

    /// So many of the device's items, with the store burned so far.
    pub fn present(&self, kept: usize, lengths: &[u32], burned: u32) -> Presentation {
        let Device { material, .. } = &self.recorded.device;
        let mut device_store = material.store.clone();
        let burned = burned.min(self.header.chunk_count);
        front(&mut device_store, burned as usize).fill(0);
        Presentation {
            device_store,
            auditor_store: self.recorded.start.store.clone(),
            log_memory: material.log_memory.clone(),
            length_bytes: length_bytes(lengths),
            seal_file: material.seal_memory[..self.seal_length(kept)].to_vec(),
        }
    }

    /// Puts an item behind those presented, with the data found in the logs.
    pub fn put(&self, presented: &mut Presentation, head: Head, key: &Key) {
        let data = match head.area() {
            None => 0..0,
            Some((phase, area)) => {
                let start = self.header.log_start(phase);
                start + area.start as usize..start + area.end as usize
            }
        };
        let data = &presented.log_memory[data];
        let item = head.seal(&self.header, plain_hmac, key, data);
        presented.seal_file.extend(item.to_bytes());
    }

    /// Behind so many items, b or more: the restart that leads on to the next
    /// chunk, as if the power had gone here. Then these, as far as they go, and
    /// fillers, all under the keys of that chunk.
    fn put_restart(
        &self,
        presented: &mut Presentation,
        kept: usize,
        behind: &[Head],
        keys: &[Key],
    ) {
        let chunk = self.burned();
        let number = (kept - self.safe()) as u32 + 1;
        for (offset, key) in (0..).zip(keys) {
            let position = Position { chunk, offset };
            let head = match offset {
                0 => Head::Restart { position, number },
                _ => match behind.get(offset as usize - 1) {
                    Some(head) => moved(*head, position),
                    None => Head::Filler { position },
                },
            };
            self.put(presented, head, key);
        }
    }

    /// Fillers in the place of the items dropped, and the logs cut to match.
    fn drop_from(&self, random: &mut Random, tally: &mut Tally, kept: usize, keys: &[Key]) {
        let mut presented = self.present(kept, &self.lengths(kept), self.burned() + 1);
        self.put_restart(&mut presented, kept, &[], keys);
        let answer = presented.compare_audits(random, tally);
        self.expect(&presented, answer, [&[Intact], &[Dropped]]);
        assert_eq!(split(answer), (0, kept as u32 + self.ratchet()));
        let shown = items(self.header.set(), &presented.seal_file);
        let (own, dropped) = self.items().split_at(kept);
        assert!(shown.starts_with(own));
        assert!(dropped.iter().all(|item| !shown.contains(item)));
        tally.count(TIGHT, 1);
    }

    /// Behind b items or more: entries under the keys of the next chunk in the
    /// place of those dropped, with the data as they were and with others.
    pub fn seal_anew(&self, random: &mut Random, tally: &mut Tally, kept: usize) {
        let dropped = self.items().iter().skip(kept).map(|item| item.head);
        let dropped: Vec<Head> = dropped.collect();
        let keys = self.next_keys();
        let Some(byte) = self.random_byte(random, &dropped) else {
            return;
        };
        if kept < self.safe() || keys.is_empty() {
            return;
        }
        let lengths = self.account.log_lengths();
        let as_left = self.present(kept, &lengths, self.burned() + 1);
        let mut changed = as_left.clone();
        changed.log_memory[byte] ^= 1;
        for (counted, mut presented) in [(SEALED_ANEW, as_left), (CHANGED, changed)] {
            self.put_restart(&mut presented, kept, &dropped, &keys);
            let answer = presented.compare_audits(random, tally);
            self.expect(&presented, answer, [&[Intact], &[Dropped]]);
            tally.count(counted, 1);
        }
    }
}

/// The same item at another place.
fn moved(head: Head, position: Position) -> Head {
    match head {
        Head::Entry {
            phase,
            offset,
            length,
            ..
        } => Head::Entry {
            phase,
            offset,
            length,
            position,
        },
        Head::Filler { .. } => Head::Filler { position },
        Head::Restart { number, .. } => Head::Restart { position, number },
    }
}
