//! Plans followed on a card: what each interval burns, and when the keys are
//! spent.

use pahyndoi::least_ratchet;
use pahyndoi::model::{
    Account, Call, KEY_LENGTH, Set, State, chunks_needed, is_burned, plain_hmac,
};

use crate::answer::split;
use crate::calls::{assert_same_material, name};
use crate::device::{Device, Shape, header_length};
use crate::lent::Stand;
use crate::library;
use crate::random::{Case, Random};
use crate::sets::in_effect;

/// A call that was refused, and by what.
type Refused = (&'static str, u32);

const KEYS_SPENT: Refused = ("append", 11);

/// Plans one after the other on one card, until one is refused: how many last
/// and how many do not.
pub fn use_up(case: &mut Case) -> (usize, usize) {
    let own_set = roomy(case.own_set);
    let random = &mut case.random;
    let ratchet = random.pick(&[1, 1, 2, 3, 4, 7, 16]);
    let counts = random_counts(random, ratchet);
    let chunks = near_chunks(random, chunks_needed(&counts, ratchet));
    let mut card = Card::new(random, own_set, chunks, ratchet);
    if card.follow(random, &counts).is_err() {
        return (0, 1);
    }
    for lasted in 1..4 {
        let counts = random_counts(random, ratchet);
        if card.follow(random, &counts).is_err() {
            return (lasted, 1);
        }
    }
    (4, 0)
}

/// Unused cards with the ratchet that the library answers, which last, and
/// with smaller ones, or any where it answers none, which do not. Gives the
/// answer.
pub fn try_least(case: &mut Case) -> Option<u32> {
    let own_set = roomy(case.own_set);
    let random = &mut case.random;
    let typical = random.pick(&[1, 2, 5, 16, 40]);
    let counts = random_counts(random, typical);
    let chunks = near_chunks(random, chunks_needed(&counts, typical));
    let least = least_ratchet(&counts, chunks).expect("a small plan");
    if let Some(ratchet) = least {
        let mut card = Card::new(random, own_set, chunks, ratchet);
        assert_eq!(card.follow(random, &counts), Ok(()));
    }
    for ratchet in too_small(random, least) {
        let mut card = Card::new(random, own_set, chunks, ratchet);
        assert_eq!(card.follow(random, &counts), Err(KEYS_SPENT));
    }
    least
}

/// Some ratchets with which the chunks do not last.
fn too_small(random: &mut Random, least: Option<u32>) -> Vec<u32> {
    match least {
        Some(1) => vec![],
        Some(least) => vec![least - 1, random.between(1, least as usize - 1) as u32],
        None if random.once_in(10) => vec![256],
        None => vec![random.between(1, 50) as u32],
    }
}

/// A plan that lasts where the seal memory does not: no key is missing. Gives
/// how many calls were refused.
pub fn run_out_of_memory(case: &mut Case) -> usize {
    let own_set = roomy(case.own_set);
    let random = &mut case.random;
    let ratchet = random.pick(&[1, 2, 3, 7]);
    let counts = random_counts(random, ratchet);
    let chunks = chunks_needed(&counts, ratchet).max(1);
    let seal_memory = random.up_to(entries_length(own_set, chunks * ratchet));
    let mut card = Card::with_seal_memory(random, own_set, chunks, ratchet, seal_memory);
    let refused = card.press_on(random, &counts);
    assert!(refused.iter().all(|(_, refusal)| *refusal == 10));
    refused.len()
}

/// The set with logs for every entry that a card is used up with, one byte each.
fn roomy(own_set: Option<Set>) -> Option<Set> {
    own_set.map(|set| Set {
        log_capacity: set.log_capacity.max(1200),
        ..set
    })
}

/// The bytes of so many entry items.
fn entries_length(own_set: Option<Set>, count: u32) -> usize {
    in_effect(own_set).entry_length() * count as usize
}

/// Few small counts, many of them around multiples of the ratchet.
fn random_counts(random: &mut Random, ratchet: u32) -> Vec<u32> {
    let most = random.pick(&[1, ratchet, ratchet + 1, 3 * ratchet]) as usize;
    let length = random.up_to(6);
    (0..length).map(|_| random.up_to(most) as u32).collect()
}

/// So many chunks, one more, one less or any, and at least one.
fn near_chunks(random: &mut Random, needed: u32) -> u32 {
    let any = random.between(1, 12) as u32;
    let chunks = random.pick(&[needed, needed + 1, needed.saturating_sub(1), any]);
    chunks.max(1)
}

/// A device that the library's calls alone bring on, and its account.
struct Card {
    ratchet: u32,
    device: Device,
    account: Account,
}

impl Card {
    /// With seal memory for an entry under each key and for one more, which
    /// rule 10 would else refuse before 11.
    fn new(random: &mut Random, own_set: Option<Set>, chunks: u32, ratchet: u32) -> Card {
        let seal_memory = entries_length(own_set, chunks * ratchet + 1);
        Card::with_seal_memory(random, own_set, chunks, ratchet, seal_memory)
    }

    fn with_seal_memory(
        random: &mut Random,
        own_set: Option<Set>,
        chunks: u32,
        ratchet: u32,
        seal_memory: usize,
    ) -> Card {
        let shape = Shape {
            own_set,
            phases: random.between(1, 3),
            chunk_count: chunks as usize,
            ratchet: ratchet as usize,
            seal_memory,
        };
        let material = shape.material(random);
        Card {
            ratchet,
            account: Account::start(&material).expect("an unused store"),
            device: Device {
                material,
                state: State::default(),
            },
        }
    }

    fn make(&mut self, call: &Call) -> Result<(), Refused> {
        let (answer, after) = library::perform(Stand::Shifted(0), &self.device, call);
        let told = self.account.call(plain_hmac, call);
        assert_eq!(answer, told.packed(), "answers: ours, account's");
        self.device = after;
        match split(answer) {
            (0, _) => Ok(()),
            (refusal, _) => Err((name(call), refusal)),
        }
    }

    /// An interval's calls: so many appends of one byte, then a close.
    fn calls(&self, random: &mut Random, count: u32) -> Vec<Call> {
        let phases = self.account.log_lengths().len();
        let appends = (0..count).map(|_| Call::Append {
            phase: random.between(1, phases) as u8,
            data: random.bytes(1),
        });
        appends.chain([Call::Close]).collect()
    }

    /// Follows an interval up to the first refusal. Where there is none, it
    /// has burned what its count takes and left no chunk half used.
    fn follow_interval(&mut self, random: &mut Random, count: u32) -> Result<(), Refused> {
        let before = self.burned();
        for call in self.calls(random, count) {
            self.make(&call)?;
        }
        let burned = self.burned() - before;
        assert_eq!(burned, count.div_ceil(self.ratchet), "{count} entries");
        assert_eq!(self.device.state.position.offset, 0, "half used");
        Ok(())
    }

    /// Opens, where no chunk is half used, and follows a plan up to the first
    /// refusal. Fails where the chunks left do not decide how that ends.
    fn follow(&mut self, random: &mut Random, counts: &[u32]) -> Result<(), Refused> {
        let open = Call::Open {
            log_lengths: self.account.log_lengths(),
            seal_length: self.account.seal_length(),
        };
        assert_eq!(self.make(&open), Ok(()));
        let left = self.chunks() - self.burned();
        let mut intervals = counts.iter();
        let end = intervals.try_for_each(|count| self.follow_interval(random, *count));
        let expected = match chunks_needed(counts, self.ratchet) <= left {
            true => Ok(()),
            false => Err(KEYS_SPENT),
        };
        assert_eq!(end, expected, "{counts:?}, {left} chunks left");
        assert!(end.is_ok() || self.burned() == self.chunks());
        self.assert_told();
        end
    }

    /// The refusals met where each call is made whatever became of those
    /// before it.
    fn press_on(&mut self, random: &mut Random, counts: &[u32]) -> Vec<Refused> {
        let mut refused = Vec::new();
        for count in counts {
            let calls = self.calls(random, *count);
            refused.extend(calls.iter().filter_map(|call| self.make(call).err()));
        }
        self.assert_told();
        refused
    }

    fn assert_told(&self) {
        assert_same_material(&self.device.material, &self.account.material());
    }

    fn chunks(&self) -> u32 {
        self.store_chunks().count() as u32
    }

    /// The zeroed chunks of the store.
    fn burned(&self) -> u32 {
        self.store_chunks().filter(|chunk| is_burned(chunk)).count() as u32
    }

    fn store_chunks(&self) -> impl Iterator<Item = &[u8]> {
        let store = &self.device.material.store;
        store[header_length(store)..].chunks(KEY_LENGTH)
    }
}
