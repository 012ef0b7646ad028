//! What is claimed of a compromised device: whatever is presented for it, one
//! outcome at least is true of its first b items, and one of all its items.

use super::Hmac;
use super::account::Account;
use super::audit::{Presented, audit};
use super::bytes::u32_at;
use super::item::{Head, Item, items};
use super::key::{Position, key_at, ratchet_head};
use super::store::{Header, burned_at_front, chunk};

#[derive(Clone, Copy, Debug, PartialEq, Eq, PartialOrd, Ord)]
pub enum Outcome {
    Refused,
    /// The items presented first are the device's, and the logs have in their
    /// areas the data that it wrote.
    Intact,
    /// The first item that is not the device's has a message that none of the
    /// device's has, and its tag is the one that the key at its own place gives
    /// for it. That place is in a chunk that the device had burned, and the key
    /// is none of those left.
    Forged,
    /// The store has the original of a chunk that the device had burned.
    Restored,
    /// Behind b of the device's items or more there stands a restart under the
    /// first key of the next chunk, and not the device's item.
    Dropped,
}

/// What is true of presented material.
#[derive(Clone, Debug, PartialEq, Eq)]
pub struct Outcomes {
    /// Of the device's items below b.
    pub of_first: Vec<Outcome>,
    /// Of all the device's items.
    pub of_all: Vec<Outcome>,
}

impl Outcomes {
    /// Whether the claim holds.
    pub fn hold(&self) -> bool {
        !self.of_first.is_empty() && !self.of_all.is_empty()
    }

    /// Whether this one is true of the first items or of all.
    pub fn contain(&self, outcome: Outcome) -> bool {
        self.of_first.contains(&outcome) || self.of_all.contains(&outcome)
    }
}

/// All that are true of what is presented behind the history of this account.
/// The auditor's store is the unused one.
pub fn outcomes(hmac: Hmac, account: &Account, presented: &Presented) -> Outcomes {
    let compromised = Compromised::new(hmac, account, presented);
    let refused = audit(hmac, presented).refusal != 0;
    let forged = compromised.forged();
    let restored = compromised.is_restored();
    let up_to = |count: usize| {
        [
            (Outcome::Refused, refused),
            (Outcome::Intact, compromised.intact >= count),
            (Outcome::Forged, forged.is_some_and(|number| number < count)),
            (Outcome::Restored, restored),
        ]
    };
    let all = up_to(account.items().len());
    let dropped = [(Outcome::Dropped, compromised.is_dropped())];
    Outcomes {
        of_first: true_ones(up_to(account.safe_count())),
        of_all: true_ones(all.into_iter().chain(dropped)),
    }
}

fn true_ones(all: impl IntoIterator<Item = (Outcome, bool)>) -> Vec<Outcome> {
    let true_ones = all.into_iter().filter(|(_, holds)| *holds);
    true_ones.map(|(outcome, _)| outcome).collect()
}

struct Compromised<'a> {
    hmac: Hmac,
    account: &'a Account,
    header: Header,
    presented: &'a Presented<'a>,
    /// As far as the seal file can be read.
    items: Vec<Item>,
    /// How many of the device's items are intact, from the first one on.
    intact: usize,
}

impl<'a> Compromised<'a> {
    fn new(hmac: Hmac, account: &'a Account, presented: &'a Presented<'a>) -> Compromised<'a> {
        let header = account.header();
        let mut compromised = Compromised {
            hmac,
            account,
            header,
            presented,
            items: items(header.set(), presented.seal_file).collect(),
            intact: 0,
        };
        let mut pairs = compromised.items.iter().zip(account.items());
        let difference = pairs.position(|(item, own)| !compromised.is_intact(item, own));
        let shorter = compromised.items.len().min(account.items().len());
        compromised.intact = difference.unwrap_or(shorter);
        compromised
    }

    /// Whether an item is one of the device's, and the logs have its data.
    fn is_intact(&self, item: &Item, own: &Item) -> bool {
        item == own && self.data(&own.head) == Some(self.account.data(&own.head))
    }

    /// The number of the first item that is not the device's, if it is forged. All
    /// items before it are intact.
    fn forged(&self) -> Option<usize> {
        let item = self.items.get(self.intact)?;
        let is_forged = self.is_out_of_reach(item.head.position())
            && self.is_new(item)
            && self.has_right_tag(item);
        is_forged.then_some(self.intact)
    }

    /// Whether the key at this place is of a burned chunk and not held. In the
    /// place of an item below b, one of the last burned chunk is its first; from
    /// b on it is the one that the device's item has.
    fn is_out_of_reach(&self, place: Position) -> bool {
        let burned = self.account.burned_count();
        let behind = self.intact.checked_sub(self.account.safe_count());
        let is_due = match behind {
            None => place.chunk + 1 < burned || place.offset == 0,
            Some(behind) => place.chunk + 1 == burned && place.offset as usize == behind + 1,
        };
        place.chunk < burned && !self.account.is_held(place) && is_due
    }

    /// Whether the message of an item is none that the device used a key for.
    fn is_new(&self, item: &Item) -> bool {
        let Some(message) = self.message(&item.head) else {
            return false;
        };
        let mut own = self.account.items().iter().map(|own| own.head);
        let is_own = own.any(|own| message == self.message_with(&own, self.account.data(&own)));
        !is_own && !is_ratchet_message(&self.header, &message)
    }

    /// With the data found in the logs; none where the area leaves them.
    fn message(&self, head: &Head) -> Option<Vec<u8>> {
        let data = self.data(head)?;
        Some(self.message_with(head, data))
    }

    fn message_with(&self, head: &Head, data: &[u8]) -> Vec<u8> {
        self.header.message(&head.to_bytes(), data).concat()
    }

    /// The data found in the logs; none where the area leaves them.
    fn data(&self, head: &Head) -> Option<&[u8]> {
        match head.area() {
            None => Some(&[]),
            Some((phase, _)) if !(1..=self.header.phases).contains(&phase) => None,
            Some((phase, area)) => {
                let log = self.header.log_start(phase);
                let (start, end) = (log + area.start as usize, log + area.end as usize);
                self.presented.log_memory.get(start..end)
            }
        }
    }

    /// Whether the tag is that of the message under the key at the item's own
    /// place, which is in a burned chunk.
    fn has_right_tag(&self, item: &Item) -> bool {
        let place = item.head.position();
        let Some(data) = self.data(&item.head) else {
            return false;
        };
        if place.offset >= self.header.ratchet {
            return false;
        }
        let unused = chunk(self.presented.auditor_store, place.chunk);
        let key = key_at(self.hmac, unused, place.offset, &self.header);
        *item == item.head.seal(&self.header, self.hmac, &key, data)
    }

    fn is_restored(&self) -> bool {
        let Presented {
            device_store: device,
            auditor_store: unused,
            ..
        } = self.presented;
        let mut burned = 0..self.account.burned_count();
        burned.any(|number| {
            let original = chunk(unused, number);
            let place = self.header.chunk_place(number);
            device.get(place) == Some(&original[..])
        })
    }

    /// In the place of some item, b or a later one, there stands the restart that
    /// leads on to the next chunk. All items before it are intact.
    fn is_dropped(&self) -> bool {
        let safe = self.account.safe_count();
        let mut numbers = safe..self.account.items().len();
        self.has_burned_more()
            && numbers.any(|number| {
                let restart = Head::Restart {
                    position: Position {
                        chunk: self.account.burned_count(),
                        offset: 0,
                    },
                    number: (number - safe) as u32 + 1,
                };
                let item = self.items.get(number);
                number <= self.intact && item.is_some_and(|item| item.head == restart)
            })
    }

    /// Whether a chunk was left, and the store presented has more burned at its
    /// front than the device had.
    fn has_burned_more(&self) -> bool {
        let burned = self.account.burned_count();
        let store = self.presented.device_store;
        burned < self.header.chunk_count
            && Header::parse(store).is_some()
            && burned_at_front(store) > burned
    }
}

/// Whether this is a ratchet message of the store, with whatever offset. It has
/// the bytes of one offset at least.
pub(super) fn is_ratchet_message(header: &Header, message: &[u8]) -> bool {
    let head = ratchet_head(u32_at(message, 9), header.ratchet);
    message == header.message(&head, &[]).concat()
}
