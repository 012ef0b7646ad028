//! Material of one set presented with stores that name another one, or with
//! tags as another one has them.

use std::cmp::Ordering;
use std::ops::Range;

use pahyndoi::model::{Header, Set};

use crate::answer::split;
use crate::areas::Area;
use crate::device::{FIELDS_LENGTH, SET_LENGTH};
use crate::forgery;
use crate::mishap::put_set;
use crate::presentation::Presentation;
use crate::random::Random;
use crate::sets::in_effect;
use crate::tally::Tally;

const ITEMS: usize = 4;

/// The stores that are changed.
#[derive(Clone, Copy, Debug, PartialEq, Eq)]
pub enum Stores {
    Device,
    Auditor,
    Both,
}

impl Stores {
    pub const ALL: [Stores; 3] = [Stores::Device, Stores::Auditor, Stores::Both];

    pub fn change(self, material: &mut Presentation, change: impl Fn(&mut Vec<u8>)) {
        if self != Stores::Auditor {
            change(&mut material.device_store);
        }
        if self != Stores::Device {
            change(&mut material.auditor_store);
        }
    }
}

/// The longest data in phase 1; two entries of a byte, and a filler between
/// them, in phase 2.
fn areas(set: Set) -> ([u32; 2], [Option<Area>; ITEMS]) {
    let longest = set.data_limit;
    let areas = [
        Some((1, 0, longest)),
        Some((2, 0, 1)),
        None,
        Some((2, 1, 1)),
    ];
    ([longest, 2], areas)
}

/// The set that the material was written with, and the one put in its place.
#[derive(Clone, Copy, Debug)]
pub struct Exchange {
    pub own_set: Option<Set>,
    pub other: Option<Set>,
}

impl Exchange {
    /// Fails where material with the other set in one store or in both, its
    /// logs kept or moved to where that set has them, is not answered as it
    /// must be.
    pub fn check(self, random: &mut Random, tally: &mut Tally) {
        let (lengths, areas) = areas(in_effect(self.own_set));
        let untouched = forgery::seal_areas(random, self.own_set, &lengths, &areas);
        for stores in Stores::ALL {
            for memory in [self.own_set, self.other] {
                let mut material = untouched.clone();
                stores.change(&mut material, |store| put_set(store, self.other));
                move_logs(&mut material, in_effect(self.own_set), in_effect(memory));
                let answer = split(material.compare(random, tally));
                self.assert_expected(stores, in_effect(memory), answer);
            }
        }
    }

    /// The log memory is that of the last set.
    fn assert_expected(self, stores: Stores, memory: Set, answer: (u32, u32)) {
        let (own, other) = (in_effect(self.own_set), in_effect(self.other));
        let device = match stores {
            Stores::Auditor => own,
            _ => other,
        };
        if device.log_capacity != memory.log_capacity {
            assert_eq!(answer, (3, 0));
        } else if own.data_limit > device.log_capacity {
            assert_eq!(answer, (5, 0));
        } else if stores != Stores::Both {
            assert_eq!(answer, (13, 0));
        } else if own.data_limit > other.data_limit {
            assert_eq!(answer, (18, 0));
        } else {
            assert_tags_read(own.tag_length, other.tag_length, answer);
        }
    }
}

/// What an audit says of items whose tags have one length where it expects the
/// other.
fn assert_tags_read(written: u8, expected: u8, (refusal, number): (u32, u32)) {
    match written.cmp(&expected) {
        Ordering::Equal => assert_eq!((refusal, number), (0, ITEMS as u32)),
        Ordering::Less => assert_read_on(0, (refusal, number)),
        Ordering::Greater => assert_eq!((is_of_item(refusal), number), (true, 1)),
    }
}

fn is_of_item(refusal: u32) -> bool {
    (15..=21).contains(&refusal)
}

/// The tag of this item is read on into the next one. That refuses it, unless
/// the bytes happen to be the right ones; then the next one is not whole.
fn assert_read_on(item: u32, (refusal, number): (u32, u32)) {
    assert!(is_of_item(refusal), "refused by {refusal}");
    assert!((item..=item + 1).contains(&number), "item {number}");
}

/// Each log moves to the place that the new set gives it, as far as it fits.
fn move_logs(material: &mut Presentation, old: Set, new: Set) {
    let (old, new) = (old.log_capacity as usize, new.log_capacity as usize);
    let logs = material.log_memory.chunks(old);
    material.log_memory = logs
        .flat_map(|log| {
            let mut moved = log.to_vec();
            moved.resize(new, 0xee);
            moved
        })
        .collect();
}

/// Stores that say the other kind: all else as it was, or so that what stands
/// behind the fields of both kinds is a set, or is not, in a store of the right
/// length.
pub fn check_kinds(random: &mut Random, tally: &mut Tally, own_set: Option<Set>) {
    let (lengths, areas) = areas(in_effect(own_set));
    let untouched = forgery::seal_areas(random, own_set, &lengths, &areas);
    for stores in Stores::ALL {
        let mut material = untouched.clone();
        stores.change(&mut material, |store| store[0] = 7 - store[0]);
        let refusal = if stores == Stores::Auditor { 12 } else { 2 };
        let answer = material.compare(random, tally);
        assert_eq!(split(answer), (refusal, 0), "{stores:?}");
        let mut material = untouched.clone();
        stores.change(&mut material, slide);
        let header = Header::parse(&material.device_store).expect("a store");
        material.log_memory.resize(header.log_memory_length(), 0xee);
        assert!(Header::parse(&material.auditor_store).is_some());
        let (refusal, _) = split(material.compare(random, tally));
        assert_ne!(refusal, 0, "{stores:?} slid");
    }
}

/// The kind is the other one, and the chunks begin elsewhere among their bytes.
fn slide(store: &mut Vec<u8>) {
    let header = Header::parse(store).expect("a store");
    match header.own_set {
        Some(_) => {
            store[0] = 1;
            store.truncate(store.len() - SET_LENGTH);
        }
        None => {
            let own_set = Some(Set::COMMON);
            let new = Header { own_set, ..header }.to_bytes();
            store[..FIELDS_LENGTH + SET_LENGTH].copy_from_slice(&new);
            store.extend([0; SET_LENGTH]);
        }
    }
}

/// The tag of one item, or of all, cut or lengthened as another set would have
/// it, and one byte beyond what any has.
pub fn check_tags(random: &mut Random, tally: &mut Tally, own_set: Option<Set>) {
    let right = usize::from(in_effect(own_set).tag_length);
    for length in (15..=33).filter(|length| *length != right) {
        for item in 0..ITEMS {
            check_tag(random, tally, own_set, length, item..item + 1);
        }
        check_tag(random, tally, own_set, length, 0..ITEMS);
    }
}

fn check_tag(
    random: &mut Random,
    tally: &mut Tally,
    own_set: Option<Set>,
    length: usize,
    touched: Range<usize>,
) {
    let set = in_effect(own_set);
    let (lengths, areas) = areas(set);
    let first = touched.start as u32;
    let mut tags = [usize::from(set.tag_length); ITEMS];
    tags[touched].fill(length);
    let material = forgery::seal_with_tags(random, own_set, &lengths, &areas, &tags);
    let answer = split(material.compare(random, tally));
    match length < usize::from(set.tag_length) {
        true => assert_read_on(first, answer),
        false => assert_eq!((is_of_item(answer.0), answer.1), (true, first + 1)),
    }
}
