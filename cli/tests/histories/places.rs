//! Which bytes of presented material are looked up.

use pahyndoi::model::{Head, Header, Item, Set, log_lengths};

use crate::areas::Area;
use crate::presentation::Presentation;
use crate::random::Random;

/// A phase and an offset in its log.
pub type Place = (u8, u32);

/// The items of a seal file, as far as it can be read.
pub fn items(set: Set, seal_file: &[u8]) -> Vec<Item> {
    let mut items = Vec::new();
    let mut rest = seal_file;
    while let Some(item) = Item::parse(set, rest) {
        rest = &rest[item.byte_count()..];
        items.push(item);
    }
    items
}

/// The entries of a seal file by item number, as far as it can be read.
pub fn entries(set: Set, seal_file: &[u8]) -> Vec<(u32, Area)> {
    let numbered = (0..).zip(items(set, seal_file));
    let entry = |(number, item): (u32, Item)| match item.head {
        Head::Entry {
            phase,
            offset,
            length,
            ..
        } => Some((number, (phase, offset, length))),
        Head::Filler { .. } | Head::Restart { .. } => None,
    };
    numbered.filter_map(entry).collect()
}

/// One byte anywhere, one at the edge of a log, and one near an entry.
pub fn random_places(random: &mut Random, presentation: &Presentation) -> Vec<Place> {
    let lengths = log_lengths(&presentation.length_bytes);
    let phases = presentation.device_store.get(9).copied().unwrap_or(8);
    let header = Header::parse(&presentation.device_store);
    let set = header.map_or(Set::COMMON, |header| header.set());
    let mut places = vec![
        anywhere(random, phases),
        at_edge_of_log(random, set, phases, &lengths),
    ];
    let entries = entries(set, &presentation.seal_file);
    if !entries.is_empty() {
        let (_, area) = random.pick(&entries);
        places.push(near_area(random, area));
    }
    places
}

/// Any phase, or a low one; any offset, or a low one.
fn anywhere(random: &mut Random, phases: u8) -> Place {
    let phase = match random.once_in(3) {
        true => random.up_to(255),
        false => random.up_to(usize::from(phases)),
    };
    let most = random.pick(&[3, 40, 600, 9000, 70_000, u32::MAX as usize]);
    (phase as u8, random.up_to(most) as u32)
}

/// Phases from 0 to one too many; offsets around the phase's length and the
/// end of its log, and huge ones that lose their high bits in 16.
fn at_edge_of_log(random: &mut Random, set: Set, phases: u8, lengths: &[u32]) -> Place {
    let phase = match random.up_to(7) {
        0 => 0,
        1 => phases.wrapping_add(1),
        2 => 255,
        3 | 4 => phases,
        _ => random.between(1, usize::from(phases.max(1))) as u8,
    };
    let index = usize::from(phase).wrapping_sub(1);
    let length = lengths.get(index).copied().unwrap_or(0);
    let before = length.wrapping_sub(1);
    let capacity = set.log_capacity;
    let offset = match random.up_to(9) {
        0 => 0,
        1..=3 => before,
        4..=6 => length,
        7 => length.wrapping_add(1),
        8 => random.pick(&[capacity - 1, capacity, u32::MAX - 1, u32::MAX]),
        _ => before | random.pick(&[1 << 16, 1 << 24, 1 << 31]),
    };
    (phase, offset)
}

/// The first byte of the area, its last one, one inside, the one before it or
/// the one behind it.
fn near_area(random: &mut Random, (phase, offset, length): Area) -> Place {
    let end = offset.wrapping_add(length);
    let offset = match random.up_to(5) {
        0 => offset.wrapping_sub(1),
        1 => offset,
        2 => end.wrapping_sub(1),
        3 | 4 => end,
        _ => offset.wrapping_add(random.up_to(length as usize) as u32),
    };
    (phase, offset)
}
