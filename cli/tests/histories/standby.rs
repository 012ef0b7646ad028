//! A device and its standby: unused stores that are equal but for their ids,
//! and what of the one is presented as the other's. Likewise what a forger
//! seals by other rules than the format's.

use pahyndoi::model::{Call, Event, Head, Item, KEY_LENGTH, Material, Position, Set, State};

use crate::answer::split;
use crate::areas::rising_areas;
use crate::calls;
use crate::device::{Device, ID, Shape};
use crate::exchanges::Stores;
use crate::forgery::{filled_up_with_restarts, seal_heads};
use crate::honest::{Told, random_shape};
use crate::lent::Stand;
use crate::messages::{Message, Rules};
use crate::places::items;
use crate::presentation::Presentation;
use crate::random::Random;
use crate::sets::in_effect;
use crate::tally::Tally;

/// The most items of one seal file that are exchanged one by one.
const EXCHANGED: usize = 8;

const ENTRIES_AT_0: &str = "entries exchanged at offset 0";
const ENTRIES_ABOVE_0: &str = "entries exchanged above offset 0";
const FILLERS_AT_0: &str = "fillers exchanged at offset 0";
const FILLERS_ABOVE_0: &str = "fillers exchanged above offset 0";
const RESTARTS: &str = "restarts exchanged";
pub const KINDS_EXCHANGED: [&str; 5] = [
    ENTRIES_AT_0,
    ENTRIES_ABOVE_0,
    FILLERS_AT_0,
    FILLERS_ABOVE_0,
    RESTARTS,
];
pub const SEAL_FILES: &str = "seal files exchanged";
pub const IDS: &str = "ids exchanged in both stores";

/// The same calls and cuts on a device and its standby, by library and model;
/// what they left is exchanged.
pub fn check_sealed(random: &mut Random, tally: &mut Tally, own_set: Option<Set>) {
    let mut shape = random_shape(random, own_set);
    let keys = shape.chunk_count * shape.ratchet;
    shape.seal_memory = shape.set().entry_length() * keys;
    let unused = random_pair(random, &shape);
    let mut devices = unused.clone().map(unused_device);
    let count = random.up_to(keys);
    let mut told = Told::random(random, &unused[0], &shape, count);
    told.tell(Event::Call(Call::Close));
    for event in &told.events {
        let stand = Stand::random(random);
        let [answer, other] = devices
            .each_mut()
            .map(|device| bring_on(stand, device, event));
        assert_eq!(answer.map(split), other.map(split), "device's, standby's");
        assert_told_apart(&devices);
    }
    let [device, standby] = [0, 1].map(|index| {
        let Device { material, state } = &devices[index];
        let lengths = &state.log_lengths[..shape.phases];
        Presentation::left(&unused[index], material, lengths, state.seal_length)
    });
    let item_count = items(shape.set(), &device.seal_file).len() as u32;
    let answer = split(device.compare(random, tally));
    assert_eq!(answer, (0, item_count));
    check_pair(random, tally, shape.set(), &device, &standby);
}

/// A cut has no answer.
fn bring_on(stand: Stand, device: &mut Device, event: &Event) -> Option<u64> {
    match event {
        Event::Call(call) => Some(calls::compare(stand, device, call)),
        Event::Cut => {
            device.state = State::default();
            None
        }
    }
}

/// The same for a forger who knows every key: fillers stand at offset 0 too.
pub fn check_forged(random: &mut Random, tally: &mut Tally, own_set: Option<Set>) {
    let set = in_effect(own_set);
    let phases = random.between(1, 3);
    let (lengths, areas) = rising_areas(random, set, phases);
    let ratchet = random.pick(&[1, 2, 3, 5]);
    let between = random.pick(&[2, 4, 1000]);
    let wanted = |_| random.once_in(between);
    let (shape, heads) = filled_up_with_restarts(own_set, ratchet, phases, &areas, wanted);
    let [device, standby] = random_pair(random, &shape)
        .map(|unused| seal_heads(&unused, set, &lengths, &heads, Rules::RIGHT));
    let answer = split(device.compare(random, tally));
    assert_eq!(answer, (0, heads.len() as u32));
    check_pair(random, tally, set, &device, &standby);
}

/// Items, then keys, by each wrong rule: refused where the rule is used first,
/// and one by one in the places of right items.
pub fn check_rules(random: &mut Random, tally: &mut Tally, own_set: Option<Set>) {
    let set = in_effect(own_set);
    let entries = [
        Some((1, 0, set.data_limit)),
        Some((2, 0, 1)),
        None,
        Some((2, 1, 1)),
    ];
    let fillers_first = [None, None, Some((1, 0, 1)), Some((2, 0, 1))];
    for (lengths, areas) in [([set.data_limit, 2], entries), ([1, 1], fillers_first)] {
        // Without restarts, then with one wherever it may stand.
        for (ratchet, restarts) in [(1, false), (2, false), (4, false), (2, true), (4, true)] {
            let (shape, heads) = filled_up_with_restarts(own_set, ratchet, 2, &areas, |_| restarts);
            let [unused, other] = random_pair(random, &shape);
            let other_id = other.store[ID].try_into().expect("8 bytes");
            let seal = |rules| seal_heads(&unused, set, &lengths, &heads, rules);
            let right = seal(Rules::RIGHT);
            assert_eq!(split(right.compare(random, tally)), (0, heads.len() as u32));
            for message in Message::wrong(other_id) {
                let items = seal(Rules {
                    items: message,
                    ..Rules::RIGHT
                });
                exchange_items(random, tally, set, &right, &items, |_| true);
                let ratchet = seal(Rules {
                    ratchet: message,
                    ..Rules::RIGHT
                });
                exchange_items(random, tally, set, &right, &ratchet, |at| at.offset > 0);
            }
        }
    }
}

/// Unused material, and the same under another id.
fn random_pair(random: &mut Random, shape: &Shape) -> [Material; 2] {
    let device = shape.material(random);
    let mut standby = device.clone();
    let id = other_id(random, device.store[ID].try_into().expect("8 bytes"));
    standby.store[ID].copy_from_slice(&id);
    [device, standby]
}

/// One bit of this id changed, the same bytes backwards, zeros, or any other.
fn other_id(random: &mut Random, id: [u8; 8]) -> [u8; 8] {
    let (mut one_bit, mut backwards) = (id, id);
    one_bit[random.index(8)] ^= 1 << random.up_to(7);
    backwards.reverse();
    let any = random.bytes(8).try_into().expect("8 bytes");
    let other = random.pick(&[one_bit, one_bit, backwards, [0; 8], any]);
    if other == id { one_bit } else { other }
}

fn unused_device(material: Material) -> Device {
    Device {
        material,
        state: State::default(),
    }
}

/// Fails where the two differ in more than ids, tags and keys above offset 0,
/// or not in these.
fn assert_told_apart([device, standby]: &[Device; 2]) {
    let (held, other_held) = (device.state.held_key, standby.state.held_key);
    match device.state.position.offset {
        0 => assert_eq!([held, other_held], [[0; KEY_LENGTH]; 2]),
        _ => assert_ne!(held, other_held),
    }
    let mut like_device = standby.clone();
    like_device.state.held_key = held;
    like_device.material.store[ID].copy_from_slice(&device.material.store[ID]);
    like_device.material.seal_memory = device.material.seal_memory.clone();
    assert!(like_device == *device, "more than the ids tells them apart");
    let [ours, others] = [device, standby].map(|device| {
        let seal_length = device.state.seal_length as usize;
        items(device.set(), &device.material.seal_memory[..seal_length])
    });
    assert_eq!(ours.len(), others.len());
    for (item, other) in ours.iter().zip(&others) {
        assert_eq!(item.head, other.head);
        assert_ne!(item.tag, other.tag);
    }
}

/// Fails where items, seal file or id of the standby pass as the device's.
fn check_pair(
    random: &mut Random,
    tally: &mut Tally,
    set: Set,
    device: &Presentation,
    standby: &Presentation,
) {
    let item_count = items(set, &device.seal_file).len() as u32;
    let answer = split(standby.compare(random, tally));
    assert_eq!(answer, (0, item_count));
    exchange_items(random, tally, set, device, standby, |_| true);
    let id = &standby.device_store[ID];
    for stores in Stores::ALL {
        let mut presented = device.clone();
        stores.change(&mut presented, |store| store[ID].copy_from_slice(id));
        let expected = match (stores, item_count) {
            (Stores::Both, 0) => (0, 0),
            (Stores::Both, _) => (21, 0),
            _ => (13, 0),
        };
        let answer = split(presented.compare(random, tally));
        assert_eq!(answer, expected, "{stores:?}");
    }
    tally.count(IDS, usize::from(item_count > 0));
}

/// Puts items of the other material in the places of the first one's, one at a
/// time, then all. Fails where one of a wrong position is not refused in its
/// place, or where another is.
fn exchange_items(
    random: &mut Random,
    tally: &mut Tally,
    set: Set,
    own: &Presentation,
    other: &Presentation,
    wrong: fn(Position) -> bool,
) {
    let (own_items, others) = (items(set, &own.seal_file), items(set, &other.seal_file));
    let count = own_items.len() as u32;
    let refused_at = |items: &[Item], first: u32| {
        let mut numbered = (first..).zip(items);
        let found = numbered.find(|(_, item)| wrong(item.head.position()));
        found.map_or((0, count), |(number, _)| (21, number))
    };
    let mut numbers: Vec<usize> = (0..others.len()).collect();
    random.shuffle(&mut numbers);
    for number in numbers.into_iter().take(EXCHANGED) {
        let mut mixed = own_items.clone();
        mixed[number] = others[number].clone();
        let presented = with_items(own, &mixed);
        let answer = split(presented.compare(random, tally));
        let item = &others[number..=number];
        assert_eq!(answer, refused_at(item, number as u32));
        if wrong(item[0].head.position()) {
            tally.count(counted(&item[0].head), 1);
        }
    }
    let answer = split(with_items(own, &others).compare(random, tally));
    assert_eq!(answer, refused_at(&others, 0));
    tally.count(SEAL_FILES, usize::from(answer.0 == 21));
}

fn with_items(material: &Presentation, items: &[Item]) -> Presentation {
    Presentation {
        seal_file: items.iter().flat_map(Item::to_bytes).collect(),
        ..material.clone()
    }
}

fn counted(head: &Head) -> &'static str {
    match (head, head.position().offset) {
        (Head::Entry { .. }, 0) => ENTRIES_AT_0,
        (Head::Entry { .. }, _) => ENTRIES_ABOVE_0,
        (Head::Filler { .. }, 0) => FILLERS_AT_0,
        (Head::Filler { .. }, _) => FILLERS_ABOVE_0,
        (Head::Restart { .. }, _) => RESTARTS,
    }
}
