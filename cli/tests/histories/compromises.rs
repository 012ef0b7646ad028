//! Devices compromised behind a history, and what is then presented for them: by who
//! holds the chunks that are left and the held key, and by who holds every key.

use pahyndoi::model::Outcome::{Dropped, Forged, Intact, Refused, Restored};
use pahyndoi::model::{
    Account, Call, Head, Header, Item, Outcome, Outcomes, Position, State, log_lengths, outcomes,
    plain_hmac,
};

use crate::accounts::Recorded;
use crate::answer::split;
use crate::calls;
use crate::damage;
use crate::device::{Device, front};
use crate::forgery::{Forger, due_behind, restart_at};
use crate::honest;
use crate::lent::Stand;
use crate::messages::Rules;
use crate::places::items;
use crate::presentation::{Presentation, length_bytes};
use crate::random::Random;
use crate::tally::Tally;

pub const DROPPED_BEHIND: &str = "items dropped behind b, accepted";
pub const GONE_ON: &str = "gone on with the held key, accepted";
pub const DROPPED_BEFORE: &str = "items dropped before b, refused";
pub const KEY_TOO_LATE: &str = "gone on with the held key behind dropped items, refused";
pub const RENAMED: &str = "restart that names a burned chunk, refused";
pub const OTHER_DATA: &str = "data below b changed by who has every key";
pub const OTHER_DATA_BEHIND: &str = "data behind b changed by who has every key";
pub const OTHER_ITEM: &str = "restart below b by who has every key";
pub const OTHER_ITEM_BEHIND: &str = "filler behind b by who has every key";
pub const ROLLED_BACK: &str = "chunks put back by who has them";
pub const DAMAGED: &str = "damaged material";

/// What is counted.
pub const COUNTED: [&str; 11] = [
    DROPPED_BEHIND,
    GONE_ON,
    DROPPED_BEFORE,
    KEY_TOO_LATE,
    RENAMED,
    OTHER_DATA,
    OTHER_DATA_BEHIND,
    OTHER_ITEM,
    OTHER_ITEM_BEHIND,
    ROLLED_BACK,
    DAMAGED,
];

/// Fails where what is claimed of a compromised device does not hold.
pub fn check(random: &mut Random, tally: &mut Tally, recorded: &Recorded) {
    let compromise = Compromise::new(recorded);
    compromise.damage(random, tally);
    if compromise.items().is_empty() {
        return;
    }
    compromise.drop_behind(random, tally);
    compromise.drop_before(random, tally);
    compromise.rename_restart(random, tally);
    compromise.use_held_key(random, tally);
    compromise.change_data(random, tally);
    compromise.change_data_behind(random, tally);
    compromise.forge_restart(random, tally);
    compromise.forge_filler(random, tally);
    compromise.roll_back(random, tally);
}

pub struct Compromise<'a> {
    pub recorded: &'a Recorded,
    pub account: &'a Account,
    pub header: Header,
}

impl<'a> Compromise<'a> {
    pub fn new(recorded: &'a Recorded) -> Compromise<'a> {
        Compromise {
            recorded,
            account: &recorded.account,
            header: recorded.device.header().expect("a store"),
        }
    }

    pub fn items(&self) -> &[Item] {
        self.account.items()
    }

    pub fn heads(&self) -> Vec<Head> {
        self.items().iter().map(|item| item.head).collect()
    }

    /// b.
    pub fn safe(&self) -> usize {
        self.account.safe_count()
    }

    pub fn ratchet(&self) -> u32 {
        self.header.ratchet
    }

    /// How many chunks are burned.
    pub fn burned(&self) -> u32 {
        self.account.burned_count()
    }

    /// What is due behind so many of the device's items.
    pub fn due(&self, kept: usize) -> Position {
        let last = self.items()[..kept].last().map(|item| item.head);
        due_behind(last.as_slice(), self.ratchet())
    }

    /// The log lengths up to so many items.
    pub fn lengths(&self, kept: usize) -> Vec<u32> {
        self.lengths_of(&self.heads()[..kept])
    }

    /// The log lengths where these are all items.
    pub fn lengths_of(&self, heads: &[Head]) -> Vec<u32> {
        let mut lengths = vec![0; usize::from(self.header.phases)];
        for (phase, area) in heads.iter().filter_map(Head::area) {
            lengths[usize::from(phase) - 1] = area.end as u32;
        }
        lengths
    }

    /// The bytes of so many items.
    pub fn seal_length(&self, kept: usize) -> usize {
        self.items()[..kept].iter().map(Item::byte_count).sum()
    }

    /// The device with room for more items, and the state at the end of so many.
    fn device(&self, kept: usize, state: State) -> Device {
        let mut device = self.recorded.device.clone();
        let seal_length = self.seal_length(kept);
        let room = (2 * self.ratchet() as usize + 2) * self.header.set().entry_length();
        device.material.seal_memory.resize(seal_length + room, 0);
        device.state = state;
        device
    }

    /// Opens at the end of so many items.
    fn open(&self, random: &mut Random, kept: usize) -> Device {
        let mut device = self.device(kept, State::default());
        let open = Call::Open {
            log_lengths: self.lengths(kept),
            seal_length: self.seal_length(kept) as u64,
        };
        assert_eq!(made(random, &mut device, &open), (0, 0));
        device
    }

    /// Some entries and a close, as far as they go, and what is then presented.
    fn go_on(&self, random: &mut Random, mut device: Device) -> Presentation {
        for _ in 0..random.up_to(2) {
            let phase = random.between(1, usize::from(self.header.phases)) as u8;
            let data = random.bytes(1);
            made(random, &mut device, &Call::Append { phase, data });
        }
        made(random, &mut device, &Call::Close);
        let lengths = &device.state.log_lengths[..usize::from(self.header.phases)];
        Presentation::left(
            &self.recorded.start,
            &device.material,
            lengths,
            device.state.seal_length,
        )
    }

    /// What is true of material that the audit answered so. Fails where the claim
    /// does not hold, or where other items were counted than there are.
    pub fn outcomes(&self, presented: &Presentation, answer: u64) -> Outcomes {
        let (refusal, count) = split(answer);
        if refusal == 0 {
            let items = items(self.header.set(), &presented.seal_file);
            assert_eq!(count, items.len() as u32);
        }
        let lengths = log_lengths(&presented.length_bytes);
        let presented = presented.presented(&lengths);
        let outcomes = outcomes(plain_hmac, self.account, &presented);
        assert!(outcomes.hold(), "the claim does not hold: {outcomes:?}");
        for told in [&outcomes.of_first, &outcomes.of_all] {
            assert_eq!(told.contains(&Refused), refusal != 0);
        }
        outcomes
    }

    /// Fails where other outcomes than these are true, of the first items and of
    /// all.
    pub fn expect(
        &self,
        presented: &Presentation,
        answer: u64,
        [of_first, of_all]: [&[Outcome]; 2],
    ) {
        let outcomes = self.outcomes(presented, answer);
        assert_eq!(outcomes.of_first, of_first, "of the first items");
        assert_eq!(outcomes.of_all, of_all, "of all items");
    }

    /// The items behind the first one of the last burned chunk are not safe.
    fn drop_behind(&self, random: &mut Random, tally: &mut Tally) {
        let kept = random.between(self.safe(), self.items().len());
        let number = self.due(kept).offset;
        if self.burned() == self.header.chunk_count || number == 0 {
            return;
        }
        let mut device = self.open(random, kept);
        let answer = made(random, &mut device, &Call::Restart { number });
        assert_eq!(answer, (0, self.burned() * self.ratchet()));
        let presented = self.go_on(random, device);
        let is_dropped = kept < self.items().len();
        let of_all = if is_dropped { Dropped } else { Intact };
        let answer = presented.compare(random, tally);
        self.expect(&presented, answer, [&[Intact], &[of_all]]);
        tally.count(DROPPED_BEHIND, usize::from(is_dropped));
    }

    /// All items below b are safe: whatever the calls write behind fewer.
    fn drop_before(&self, random: &mut Random, tally: &mut Tally) {
        let kept = random.up_to(self.safe() - 1);
        let due = self.due(kept);
        let mut device = self.open(random, kept);
        let number = match due.offset {
            0 => random.between(1, self.ratchet().max(2) as usize - 1) as u32,
            offset => offset,
        };
        let restarted = match random.once_in(4) {
            true => (0, 0),
            false => made(random, &mut device, &Call::Restart { number }),
        };
        let presented = self.go_on(random, device);
        let answer = presented.compare(random, tally);
        self.expect(&presented, answer, [&[Refused], &[Refused]]);
        let more = presented.seal_file.len() > self.seal_length(kept);
        let expected = if more { (17, kept as u32) } else { (22, 0) };
        assert_eq!(split(answer), expected, "{restarted:?}");
        tally.count(DROPPED_BEFORE, 1);
    }

    /// A restart that names the chunk due below b, but has the key of the next
    /// chunk that is not burned.
    fn rename_restart(&self, random: &mut Random, tally: &mut Tally) {
        let kept = random.up_to(self.safe() - 1);
        let due = self.due(kept);
        if due.offset == 0 {
            return;
        }
        let unburned = Position {
            chunk: self.burned(),
            offset: 0,
        };
        let heads = [&self.heads()[..kept], &[restart_at(due)]].concat();
        let mut places: Vec<Position> = heads.iter().map(Head::position).collect();
        places[kept] = unburned;
        let forger = self.forger(self.burned(), &self.lengths(kept));
        let items = forger.seal_all(&heads, &places);
        let presented = forger.present_cut(self.header.set(), items);
        let answer = presented.compare(random, tally);
        self.expect(&presented, answer, [&[Refused], &[Refused]]);
        assert_eq!(split(answer), (21, kept as u32));
        tally.count(RENAMED, 1);
    }

    /// The held key seals what comes next, and nothing before.
    fn use_held_key(&self, random: &mut Random, tally: &mut Tally) {
        let state = self.recorded.device.state;
        if state.position.offset == 0 {
            return;
        }
        let device = self.device(self.items().len(), state);
        let presented = self.go_on(random, device);
        let answer = presented.compare(random, tally);
        self.expect(&presented, answer, [&[Intact], &[Intact]]);
        tally.count(GONE_ON, 1);
        if self.safe() == self.items().len() {
            return;
        }
        let kept = random.between(self.safe(), self.items().len() - 1);
        let mut earlier = self.device(kept, state);
        earlier.state.position = self.due(kept);
        earlier.state.seal_length = self.seal_length(kept) as u64;
        let lengths = self.lengths(kept);
        earlier.state.log_lengths[..lengths.len()].copy_from_slice(&lengths);
        let presented = self.go_on(random, earlier);
        let answer = presented.compare(random, tally);
        self.expect(&presented, answer, [&[Refused, Intact], &[Refused]]);
        assert_eq!(split(answer), (21, kept as u32));
        tally.count(KEY_TOO_LATE, 1);
    }

    /// With every key of the store.
    pub fn forger(&self, burned: u32, lengths: &[u32]) -> Forger {
        let mut unused = self.recorded.start.clone();
        unused.log_memory = self.recorded.device.material.log_memory.clone();
        Forger::new(&unused, burned as usize, lengths, Rules::RIGHT)
    }

    /// Fillers up to the end of the burned chunks.
    fn filled_up(&self, mut heads: Vec<Head>) -> Vec<Head> {
        loop {
            let position = due_behind(&heads, self.ratchet());
            if position.chunk >= self.burned() {
                return heads;
            }
            heads.push(Head::Filler { position });
        }
    }

    /// An entry below b with other data, and its right tag.
    fn change_data(&self, random: &mut Random, tally: &mut Tally) {
        let below = &self.heads()[..self.safe()];
        if let Some(presented) = self.with_other_data(random, below) {
            let answer = presented.compare(random, tally);
            self.expect(&presented, answer, [&[Forged], &[Forged]]);
            tally.count(OTHER_DATA, 1);
        }
    }

    /// The same of an entry from b on.
    fn change_data_behind(&self, random: &mut Random, tally: &mut Tally) {
        let behind = &self.heads()[self.safe()..];
        if let Some(presented) = self.with_other_data(random, behind) {
            let answer = presented.compare_audits(random, tally);
            self.expect(&presented, answer, [&[Intact], &[Forged]]);
            tally.count(OTHER_DATA_BEHIND, 1);
        }
    }

    /// Other data for one of these, if an entry is among them, and all sealed anew.
    fn with_other_data(&self, random: &mut Random, among: &[Head]) -> Option<Presentation> {
        let byte = self.random_byte(random, among)?;
        let mut forger = self.forger(self.burned(), &self.account.log_lengths());
        forger.change_log(byte, random.between(1, 255) as u8);
        let heads = self.filled_up(self.heads());
        let items = forger.seal_in_place(&heads);
        Some(forger.present_cut(self.header.set(), items))
    }

    /// Where a byte of one of these stands in the log memory, if an entry is among
    /// them.
    pub fn random_byte(&self, random: &mut Random, among: &[Head]) -> Option<usize> {
        let areas: Vec<_> = among.iter().filter_map(Head::area).collect();
        if areas.is_empty() {
            return None;
        }
        let (phase, area) = areas[random.index(areas.len())].clone();
        let byte = random.between(area.start as usize, area.end as usize - 1);
        Some(self.header.log_start(phase) + byte)
    }

    /// Items dropped below b, and a restart behind them under the key of a
    /// burned chunk: another one than the key of the device's item there.
    fn forge_restart(&self, random: &mut Random, tally: &mut Tally) {
        let kept = random.up_to(self.safe() - 1);
        let due = self.due(kept);
        if due.offset == 0 {
            return;
        }
        let restart = restart_at(due);
        let presented = self.filled_up_behind(kept, &[restart]);
        let answer = presented.compare(random, tally);
        let Outcomes { of_first, of_all } = self.outcomes(&presented, answer);
        assert_eq!(split(answer).0, 0);
        if self.items()[kept].head != restart {
            assert_eq!([of_first, of_all], [[Forged], [Forged]]);
            tally.count(OTHER_ITEM, 1);
        }
    }

    /// Fillers in the places of an entry from b on and of all behind it, under
    /// their keys.
    fn forge_filler(&self, random: &mut Random, tally: &mut Tally) {
        let is_entry = |number: &usize| self.items()[*number].head.area().is_some();
        let entries: Vec<usize> = (self.safe()..self.items().len()).filter(is_entry).collect();
        if entries.is_empty() {
            return;
        }
        let presented = self.filled_up_behind(random.pick(&entries), &[]);
        let answer = presented.compare_audits(random, tally);
        self.expect(&presented, answer, [&[Intact], &[Forged]]);
        tally.count(OTHER_ITEM_BEHIND, 1);
    }

    /// So many of the device's items, these and fillers, by who has every key.
    fn filled_up_behind(&self, kept: usize, behind: &[Head]) -> Presentation {
        let heads = self.filled_up([&self.heads()[..kept], behind].concat());
        let forger = self.forger(self.burned(), &self.lengths(kept));
        let items = forger.seal_in_place(&heads);
        forger.present_cut(self.header.set(), items)
    }

    /// The store as it was once, and the items up to then.
    fn roll_back(&self, random: &mut Random, tally: &mut Tally) {
        let whole = |kept: &usize| self.due(*kept).offset == 0;
        let ends: Vec<usize> = (0..self.safe()).filter(whole).collect();
        let kept = random.pick(&ends);
        let chunk = self.due(kept).chunk as usize;
        let mut store = self.recorded.start.store.clone();
        front(&mut store, chunk).fill(0);
        let presented = Presentation {
            device_store: store,
            auditor_store: self.recorded.start.store.clone(),
            log_memory: self.recorded.device.material.log_memory.clone(),
            length_bytes: length_bytes(&self.lengths(kept)),
            seal_file: self.account.seal_file()[..self.seal_length(kept)].to_vec(),
        };
        let answer = presented.compare(random, tally);
        self.expect(&presented, answer, [&[Restored], &[Restored]]);
        assert_eq!(split(answer), (0, kept as u32));
        tally.count(ROLLED_BACK, 1);
    }

    /// By somebody without keys. The auditor's store is not theirs to touch.
    fn damage(&self, random: &mut Random, tally: &mut Tally) {
        let set = self.header.set();
        let untouched = honest::of_account(&self.recorded.start, set, self.account);
        let mut damaged = damage::damaged(random, &untouched, &untouched, 2);
        damaged.auditor_store = self.recorded.start.store.clone();
        let answer = damaged.compare(random, tally);
        let outcomes = self.outcomes(&damaged, answer);
        assert!(!outcomes.contain(Forged) && !outcomes.contain(Dropped));
        tally.count(DAMAGED, 1);
    }
}

/// The call by library and model.
fn made(random: &mut Random, device: &mut Device, call: &Call) -> (u32, u32) {
    split(calls::compare(Stand::random(random), device, call))
}
