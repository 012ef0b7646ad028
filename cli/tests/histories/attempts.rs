//! Items made up with the keys that a device had left: at every place of its
//! seal file, under every key, naming the place of that key or the one due.
//! What the audit answers is known beforehand.

use std::ops::Range;

use pahyndoi::model::Outcome::{Dropped, Intact, Refused};
use pahyndoi::model::{Head, Outcome, Position};

use crate::accounts::Recorded;
use crate::answer::split;
use crate::compromises::Compromise;
use crate::forgery::restart_at;
use crate::presentation::{Presentation, length_bytes};
use crate::random::Random;
use crate::tally::Tally;

const FILLER_TAKEN: &str = "filler behind all items, accepted";
const ENTRY_TAKEN: &str = "entry behind all items, accepted";
const RESTART_TAKEN: &str = "restart behind all items, accepted";
const DROPPED: &str = "restart behind dropped items, accepted";
const FILLER_REFUSED: &str = "filler where its key is not due, refused";
const ENTRY_REFUSED: &str = "entry where its key is not due, refused";
const RESTART_REFUSED: &str = "restart where it may not stand, refused";
const FILLER_RENAMED: &str = "filler with another key than is due, refused";
const ENTRY_RENAMED: &str = "entry with another key than is due, refused";
const RESTART_RENAMED: &str = "restart with another key than is due, refused";
const UNCOVERED: &str = "restart behind dropped items, logs left, refused";
const UNBURNED: &str = "restart behind dropped items, store left, refused";
const OTHER_NUMBER: &str = "restart behind dropped items, another number, refused";
const HELD_KEY_TAKEN: &str = "items under the held key, accepted";
const HELD_KEY_REFUSED: &str = "items under the held key or one ahead, refused";
const FIRST_KEY: &str = "items under the first key of a chunk";
const LATER_KEY: &str = "items under a later key of a chunk, refused";

/// What is counted.
pub const COUNTED: [&str; 17] = [
    FILLER_TAKEN,
    ENTRY_TAKEN,
    RESTART_TAKEN,
    DROPPED,
    FILLER_REFUSED,
    ENTRY_REFUSED,
    RESTART_REFUSED,
    FILLER_RENAMED,
    ENTRY_RENAMED,
    RESTART_RENAMED,
    UNCOVERED,
    UNBURNED,
    OTHER_NUMBER,
    HELD_KEY_TAKEN,
    HELD_KEY_REFUSED,
    FIRST_KEY,
    LATER_KEY,
];

/// How many of the chunks left are tried, besides the last one.
const CHUNKS_TRIED: u32 = 2;

/// Fails where a made-up item is taken that must not be, or is refused that must
/// not be, or where more comes of it than items dropped behind b.
pub fn check(random: &mut Random, tally: &mut Tally, recorded: &Recorded) {
    let compromise = Compromise::new(recorded);
    compromise.check_keys(tally);
    let places = places(random, &compromise);
    for kept in 0..=compromise.items().len() {
        for held in &places {
            try_lengths(random, tally, &compromise, kept, *held);
        }
        compromise.seal_anew(random, tally, kept);
    }
}

/// Of the held key and those that follow it, and of the first key and a later
/// one of chunks that are left.
fn places(random: &mut Random, compromise: &Compromise) -> Vec<Position> {
    let ratchet = compromise.ratchet();
    let Position { chunk, offset } = compromise.recorded.device.state.position;
    let ahead = if offset > 0 { offset..ratchet } else { 0..0 };
    let mut places: Vec<Position> = ahead.map(|offset| Position { chunk, offset }).collect();
    let (burned, count) = (compromise.burned(), compromise.header.chunk_count);
    let is_tried = |chunk: &u32| *chunk < burned + CHUNKS_TRIED || *chunk + 1 == count;
    for chunk in (burned..count).filter(is_tried) {
        let later = random.between(1, ratchet.max(2) as usize - 1) as u32;
        let offsets = [0, later].into_iter().filter(|offset| *offset < ratchet);
        places.extend(offsets.map(|offset| Position { chunk, offset }));
    }
    places
}

/// With the logs cut to match, and as they were left.
fn try_lengths(
    random: &mut Random,
    tally: &mut Tally,
    compromise: &Compromise,
    kept: usize,
    held: Position,
) {
    let mut lengths = vec![compromise.lengths(kept), compromise.account.log_lengths()];
    lengths.dedup();
    for lengths in lengths {
        let attempt = Attempt {
            compromise,
            kept,
            due: compromise.due(kept),
            held,
            lengths,
        };
        for head in attempt.heads(random) {
            attempt.try_head(random, tally, head);
        }
    }
}

/// Something made up behind so many of the device's items.
struct Attempt<'a> {
    compromise: &'a Compromise<'a>,
    kept: usize,
    /// What is due there.
    due: Position,
    /// The place of the key that is used.
    held: Position,
    /// Those of the logs, before anything is made up.
    lengths: Vec<u32>,
}

impl Attempt<'_> {
    /// All that are tried, naming the place held or the one due; restarts with
    /// the right number and with others.
    fn heads(&self, random: &mut Random) -> Vec<Head> {
        let mut heads = vec![restart_at(self.due)];
        for position in [self.held, self.due] {
            heads.push(Head::Filler { position });
            heads.extend(self.entry(random, position));
        }
        let right = self.due.offset;
        for number in [right, right + 1, right.wrapping_sub(1)] {
            let position = self.held;
            heads.push(Head::Restart { position, number });
        }
        let mut tried = Vec::new();
        for head in heads {
            if !tried.contains(&head) {
                tried.push(head);
            }
        }
        tried
    }

    /// Behind the log of some phase; none where there is no room.
    fn entry(&self, random: &mut Random, position: Position) -> Option<Head> {
        let set = self.compromise.header.set();
        let index = random.index(self.lengths.len());
        let (offset, length) = (self.lengths[index], random.between(1, 3) as u32);
        let length = length.min(set.data_limit);
        let fits = offset + length <= set.log_capacity;
        fits.then_some(Head::Entry {
            phase: index as u8 + 1,
            offset,
            length,
            position,
        })
    }

    /// Audits with the store burned as the item needs it, and as it was left.
    fn try_head(&self, random: &mut Random, tally: &mut Tally, head: Head) {
        let mut presented = self.present(random, head);
        let is_accepted = self.may_stand(&head) && self.is_covered();
        let is_dropped = self.leads_on(&head);
        let refusal = self.audit(random, tally, &presented, is_accepted, is_dropped);
        tally.count(self.counted(&head, refusal), 1);
        tally.count(self.key_counted(refusal), 1);
        let store_left = &self.compromise.recorded.device.material.store;
        if presented.device_store != *store_left {
            presented.device_store.clone_from(store_left);
            self.audit(random, tally, &presented, false, false);
            tally.count(UNBURNED, usize::from(is_accepted && is_dropped));
        }
    }

    /// The item under the key held, and fillers behind it up to the end of the
    /// burned chunks, under their own keys where these are left.
    fn present(&self, random: &mut Random, head: Head) -> Presentation {
        let ratchet = self.compromise.ratchet();
        let burned = self.compromise.burned().max(head.position().chunk + 1);
        let mut presented = self.compromise.present(self.kept, &self.lengths, burned);
        if let Some((phase, area)) = head.area() {
            self.write(random, &mut presented, phase, area);
        }
        let key = self.compromise.key(self.held).expect("a key that is left");
        self.compromise.put(&mut presented, head, &key);
        let mut position = head.position().next(ratchet);
        while position.chunk < burned {
            let own = self.compromise.key(position).unwrap_or(key);
            let filler = Head::Filler { position };
            self.compromise.put(&mut presented, filler, &own);
            position = position.next(ratchet);
        }
        presented
    }

    /// New data behind a log.
    fn write(
        &self,
        random: &mut Random,
        presented: &mut Presentation,
        phase: u8,
        area: Range<u64>,
    ) {
        let (start, end) = (area.start as usize, area.end as usize);
        let data = random.bytes(end - start);
        let log = self.compromise.header.log_start(phase);
        presented.log_memory[log + start..log + end].copy_from_slice(&data);
        let mut lengths = self.lengths.clone();
        lengths[usize::from(phase) - 1] = end as u32;
        presented.length_bytes = length_bytes(&lengths);
    }

    /// Whether the item is one that may stand here, and has its own key.
    fn may_stand(&self, head: &Head) -> bool {
        let is_due = match head {
            Head::Restart { .. } => self.due.offset > 0 && *head == restart_at(self.due),
            Head::Entry { .. } | Head::Filler { .. } => head.position() == self.due,
        };
        is_due && head.position() == self.held
    }

    /// Whether the logs end where the items do.
    fn is_covered(&self) -> bool {
        self.lengths == self.compromise.lengths(self.kept)
    }

    /// Whether items of the device are missing that are not safe.
    fn is_behind_dropped(&self) -> bool {
        let dropped = self.compromise.safe()..self.compromise.items().len();
        dropped.contains(&self.kept)
    }

    /// Whether the item is, in the place of one that was dropped, the restart of
    /// the next chunk, whatever its key.
    fn leads_on(&self, head: &Head) -> bool {
        let next = self.compromise.burned();
        self.is_behind_dropped()
            && next < self.compromise.header.chunk_count
            && head.position().chunk == next
            && *head == restart_at(self.due)
    }

    /// Gives the refusal. The device's items are intact as far as they are kept,
    /// or dropped; none is forged and no chunk restored. Fails where it is not so.
    fn audit(
        &self,
        random: &mut Random,
        tally: &mut Tally,
        presented: &Presentation,
        is_accepted: bool,
        is_dropped: bool,
    ) -> u32 {
        let answer = presented.compare_audits(random, tally);
        let (refusal, number) = split(answer);
        let is_right = (refusal == 0) == is_accepted;
        assert!(is_right, "refused by {refusal} at {number}");
        let is_safe = self.kept >= self.compromise.safe();
        let is_all = self.kept == self.compromise.items().len();
        let of_first = true_ones(!is_accepted, is_safe, false);
        let of_all = true_ones(!is_accepted, is_all, is_dropped);
        self.compromise
            .expect(presented, answer, [&of_first, &of_all]);
        refusal
    }

    fn counted(&self, head: &Head, refusal: u32) -> &'static str {
        match (head, refusal) {
            (Head::Filler { .. }, 0) => FILLER_TAKEN,
            (Head::Filler { .. }, 21) => FILLER_RENAMED,
            (Head::Filler { .. }, _) => FILLER_REFUSED,
            (Head::Entry { .. }, 0) => ENTRY_TAKEN,
            (Head::Entry { .. }, 21) => ENTRY_RENAMED,
            (Head::Entry { .. }, _) => ENTRY_REFUSED,
            (Head::Restart { .. }, 0) if self.is_behind_dropped() => DROPPED,
            (Head::Restart { .. }, 0) => RESTART_TAKEN,
            (Head::Restart { .. }, 21) => RESTART_RENAMED,
            (Head::Restart { .. }, 23) => UNCOVERED,
            (Head::Restart { .. }, _) if self.has_other_number(head) => OTHER_NUMBER,
            (Head::Restart { .. }, _) => RESTART_REFUSED,
        }
    }

    fn has_other_number(&self, head: &Head) -> bool {
        let restart = restart_at(self.due);
        self.is_behind_dropped() && head.position() == restart.position() && *head != restart
    }

    fn key_counted(&self, refusal: u32) -> &'static str {
        let is_left = self.held.chunk >= self.compromise.burned();
        match (is_left, self.held.offset, refusal) {
            (false, _, 0) => HELD_KEY_TAKEN,
            (false, ..) => HELD_KEY_REFUSED,
            (true, 0, _) => FIRST_KEY,
            (true, ..) => LATER_KEY,
        }
    }
}

fn true_ones(is_refused: bool, is_intact: bool, is_dropped: bool) -> Vec<Outcome> {
    let all = [
        (Refused, is_refused),
        (Intact, is_intact),
        (Dropped, is_dropped),
    ];
    let true_ones = all.into_iter().filter(|(_, holds)| *holds);
    true_ones.map(|(outcome, _)| outcome).collect()
}
