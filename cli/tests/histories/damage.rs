//! Damage to honest material by somebody without keys.

use pahyndoi::model::{Header, Item, KEY_LENGTH, Set};

use crate::device::header_length;
use crate::honest::Honest;
use crate::mishap;
use crate::presentation::Presentation;
use crate::random::Random;

/// The material after so many damages; the other one lends what is mixed in.
pub fn damaged(
    random: &mut Random,
    honest: &Honest,
    other: &Honest,
    damages: usize,
) -> Presentation {
    let mut honest = honest.clone();
    for _ in 0..damages {
        damage(random, &mut honest, other);
    }
    honest.presentation
}

fn damage(random: &mut Random, honest: &mut Honest, other: &Honest) {
    let Honest {
        set,
        presentation,
        items,
    } = honest;
    match random.up_to(14) {
        0 => flip_bit(random, &mut presentation.seal_file),
        1 => flip_in_logs(random, *set, presentation),
        2 => damage_device_store(random, presentation),
        3 => damage_auditor_store(random, presentation),
        4 => damage_both_headers(random, presentation),
        5 | 6 => damage_lengths(random, *set, &mut presentation.length_bytes),
        7 => cut_seal_file(random, *set, presentation, items),
        8 => lengthen_seal_file(random, *set, presentation, items),
        9 => mishap::resize_logs(random, *set, &mut presentation.log_memory),
        10 => flip_at_end_of_item(random, presentation, items),
        11 => exchange_sets(random, presentation),
        12 => {
            damage_tags(random, items);
            presentation.seal_file = items.iter().flat_map(Item::to_bytes).collect();
        }
        _ => {
            damage_items(random, items, &other.items);
            presentation.seal_file = items.iter().flat_map(Item::to_bytes).collect();
        }
    }
}

fn flip_bit(random: &mut Random, bytes: &mut [u8]) {
    if !bytes.is_empty() {
        bytes[random.index(bytes.len())] ^= 1 << random.up_to(7);
    }
}

/// Mostly within a phase's length, where the data are.
fn flip_in_logs(random: &mut Random, set: Set, presentation: &mut Presentation) {
    let phase = random.index(presentation.length_bytes.len().max(4) / 4);
    let capacity = set.log_capacity as usize;
    let log = presentation.log_memory.chunks_mut(capacity).nth(phase);
    let Some(log) = log else {
        return;
    };
    let near = random.pick(&[4, 60, 600, capacity]).min(log.len());
    flip_bit(random, &mut log[..near]);
}

/// Chunks burned too many or rolled back to the auditor's, or any mishap.
fn damage_device_store(random: &mut Random, presentation: &mut Presentation) {
    let store = &mut presentation.device_store;
    let first = header_length(store);
    if store.len() < first || store.len() != presentation.auditor_store.len() {
        return;
    }
    let start = first + KEY_LENGTH * random.up_to((store.len() - first) / KEY_LENGTH);
    match random.up_to(6) {
        0 => store[first..start].fill(0),
        1 => store[start..].copy_from_slice(&presentation.auditor_store[start..]),
        2 => store.copy_from_slice(&presentation.auditor_store),
        3 => mishap::resize_store(random, store),
        4 => mishap::alter_chunk(random, store),
        5 => mishap::alter_header(random, store),
        _ => flip_bit(random, store),
    }
}

fn damage_auditor_store(random: &mut Random, presentation: &mut Presentation) {
    let store = &mut presentation.auditor_store;
    if store.len() < header_length(store) + KEY_LENGTH {
        return;
    }
    match random.up_to(5) {
        0 => mishap::resize_store(random, store),
        1 => mishap::alter_chunk(random, store),
        2 => mishap::alter_header(random, store),
        3 => *store = presentation.device_store.clone(),
        _ => flip_bit(random, store),
    }
}

/// The same bit of both headers.
fn damage_both_headers(random: &mut Random, presentation: &mut Presentation) {
    let length = header_length(&presentation.device_store);
    let (index, bit) = (random.index(length), 1 << random.up_to(7));
    for store in [
        &mut presentation.device_store,
        &mut presentation.auditor_store,
    ] {
        if let Some(byte) = store.get_mut(index) {
            *byte ^= bit;
        }
    }
}

/// Another set in one of the stores or the same in both, mostly with log memory
/// for what the device's store then says.
fn exchange_sets(random: &mut Random, presentation: &mut Presentation) {
    let Presentation {
        device_store: device,
        auditor_store: auditor,
        ..
    } = presentation;
    match random.up_to(2) {
        0 => mishap::alter_set(random, device),
        1 => mishap::alter_set(random, auditor),
        _ => {
            mishap::alter_set(random, auditor);
            copy_header(auditor, device);
        }
    }
    match Header::parse(device) {
        Some(header) if !random.once_in(4) => {
            let length = header.log_memory_length();
            presentation.log_memory.resize(length, 0xee);
        }
        _ => (),
    }
}

/// Exchanges the header of one store, if it is whole, for that of another.
fn copy_header(from: &[u8], to: &mut Vec<u8>) {
    let (old, new) = (header_length(to), header_length(from));
    if let (Some(_), Some(header)) = (to.get(..old), from.get(..new)) {
        to.splice(..old, header.iter().copied());
    }
}

/// The last byte of an item or the one behind it, where the next one begins.
fn flip_at_end_of_item(random: &mut Random, presentation: &mut Presentation, items: &[Item]) {
    let before = &items[..random.up_to(items.len())];
    let end: usize = before.iter().map(Item::byte_count).sum();
    let index = end.saturating_sub(random.up_to(1));
    if let Some(byte) = presentation.seal_file.get_mut(index) {
        *byte ^= 1 << random.up_to(7);
    }
}

/// Cuts or lengthens the tag of one item, or of all, as another set would.
fn damage_tags(random: &mut Random, items: &mut [Item]) {
    let Some(first) = items.first() else {
        return;
    };
    let right = first.tag.len();
    let any = random.between(16, 32);
    let length = random.pick(&[right.saturating_sub(1), right + 1, 16, 32, any]);
    let one = random.index(items.len());
    let touched = match random.once_in(2) {
        true => &mut items[one..=one],
        false => items,
    };
    for item in touched {
        item.tag.resize(length, random.next() as u8);
    }
}

/// Another number of bytes, or another length for one phase.
fn damage_lengths(random: &mut Random, set: Set, bytes: &mut Vec<u8>) {
    let count = bytes.len();
    match random.up_to(7) {
        0 => bytes.resize(count + random.pick(&[1, 2, 3, 4, 5, 32]), 0),
        1 => bytes.truncate(count.saturating_sub(random.between(1, 5))),
        2 => bytes.clear(),
        3 => flip_bit(random, bytes),
        _ if count < 4 => (),
        choice => {
            let phase = random.index(count / 4);
            let place = &mut bytes[4 * phase..4 * phase + 4];
            let length = u32::from_le_bytes(place.try_into().expect("4 bytes"));
            let new = match choice {
                4 => length.wrapping_add(1),
                5 => length.wrapping_sub(1),
                _ => random.pick(&[0, set.log_capacity, set.log_capacity + 1, u32::MAX]),
            };
            place.copy_from_slice(&new.to_le_bytes());
        }
    }
}

/// Behind an item, behind one byte of it, before its tag or anywhere.
fn cut_seal_file(random: &mut Random, set: Set, presentation: &mut Presentation, items: &[Item]) {
    let kept = &items[..random.up_to(items.len())];
    let start: usize = kept.iter().map(Item::byte_count).sum();
    let lengths = [
        set.entry_length(),
        set.filler_length(),
        set.restart_length(),
    ];
    let whole = random.pick(&lengths);
    let more = [1, 8, 9, 12, 13, 17, 18, whole - 1, whole, whole + 1];
    let length = match random.up_to(3) {
        0 | 1 => start,
        2 => start + random.pick(&more),
        _ => random.up_to(presentation.seal_file.len()),
    };
    presentation.seal_file.truncate(length);
}

/// Bytes behind the last item: any, the front of an item, or a whole one.
fn lengthen_seal_file(
    random: &mut Random,
    set: Set,
    presentation: &mut Presentation,
    items: &[Item],
) {
    let length = random.between(1, 60);
    let mut bytes = match random.up_to(2) {
        0 => random.bytes(length),
        1 => vec![0; length],
        _ if items.is_empty() => vec![3; set.filler_length()],
        _ => items[random.index(items.len())].to_bytes(),
    };
    if random.once_in(2) {
        bytes[0] = random.pick(&[2, 3, 5]);
    }
    presentation.seal_file.extend(bytes);
}

/// Drops, repeats, exchanges or moves items, or takes some of the other
/// history's.
fn damage_items(random: &mut Random, items: &mut Vec<Item>, others: &[Item]) {
    if items.is_empty() {
        items.extend_from_slice(others);
        return;
    }
    let (one, another) = (random.index(items.len()), random.index(items.len()));
    match random.up_to(6) {
        0 => drop(items.remove(one)),
        1 => items.insert(one, items[another].clone()),
        2 => items.swap(one, another),
        3 => {
            let moved = items.remove(one);
            items.insert(another, moved);
        }
        4 => items[one] = others.get(one).unwrap_or(&items[another]).clone(),
        5 => {
            items.truncate(one);
            items.extend(others.iter().skip(one).cloned());
        }
        _ => items[one].tag = items[another].tag.clone(),
    }
}
