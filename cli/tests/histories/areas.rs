//! The areas of entries and the orders in which a forger may present them.

use std::collections::VecDeque;

use pahyndoi::model::Set;

use crate::random::Random;

/// Phase, offset and data length.
pub type Area = (u8, u32, u32);

/// The log lengths, and areas with fillers between them, as none.
pub type Areas = (Vec<u32>, Vec<Option<Area>>);

/// Areas that cover each phase's log without a gap, each beginning where the
/// one of its phase before it ends.
pub fn rising_areas(random: &mut Random, set: Set, phases: usize) -> Areas {
    let (lengths, queues) = random_covers(random, set, phases);
    (lengths, merge(random, queues))
}

/// The same areas, half of the time in another order.
pub fn random_areas(random: &mut Random, set: Set, phases: usize) -> Areas {
    let (lengths, mut queues) = random_covers(random, set, phases);
    if random.once_in(2) {
        for areas in &mut queues {
            put_in_order(random, areas);
        }
    }
    (lengths, merge(random, queues))
}

/// The length of each phase's log, and the areas that cover it.
fn random_covers(random: &mut Random, set: Set, phases: usize) -> (Vec<u32>, Vec<Vec<Area>>) {
    let mut queues = Vec::new();
    let mut lengths = Vec::new();
    for phase in 1..=phases {
        let most = random.pick(&[0, 1, 5, 20, 40]);
        let count = random.up_to(most);
        let (length, areas) = cover(random, set, phase as u8, count);
        queues.push(areas);
        lengths.push(length);
    }
    (lengths, queues)
}

/// This many areas, one behind the other from offset 0.
fn cover(random: &mut Random, set: Set, phase: u8, count: usize) -> (u32, Vec<Area>) {
    let most = random.pick(&[1, 2, 40, 200]).min(set.data_limit as usize);
    let mut areas = Vec::new();
    let mut offset = 0;
    for _ in 0..count {
        let length = match random.once_in(30) {
            true => set.data_limit,
            false => random.between(1, most) as u32,
        };
        let length = length.min(set.log_capacity - offset);
        if length > 0 {
            areas.push((phase, offset, length));
        }
        offset += length;
    }
    (offset, areas)
}

/// As they stand, with two neighbours exchanged, with the first of some behind
/// the others, mixed within a window, or mixed all over.
fn put_in_order(random: &mut Random, areas: &mut [Area]) {
    let window = random.between(2, 20);
    match random.up_to(4) {
        0 => (),
        1 if areas.len() > 1 => {
            let first = random.index(areas.len() - 1);
            areas.swap(first, first + 1);
        }
        2 => areas
            .chunks_mut(window)
            .for_each(|part| part.rotate_left(1)),
        3 => areas
            .chunks_mut(window)
            .for_each(|part| random.shuffle(part)),
        _ => random.shuffle(areas),
    }
}

/// One sequence out of the phases' own; now and then a filler.
fn merge(random: &mut Random, queues: Vec<Vec<Area>>) -> Vec<Option<Area>> {
    let mut merged = Vec::new();
    let mut queues: Vec<_> = queues.into_iter().map(VecDeque::from).collect();
    queues.retain(|queue| !queue.is_empty());
    while !queues.is_empty() {
        if random.once_in(10) {
            merged.push(None);
        }
        let chosen = random.index(queues.len());
        merged.push(queues[chosen].pop_front());
        queues.retain(|queue| !queue.is_empty());
    }
    merged
}

/// The index of a random entry, if there is one.
pub fn random_entry(random: &mut Random, areas: &[Option<Area>]) -> Option<usize> {
    let entries: Vec<usize> = (0..areas.len()).filter(|i| areas[*i].is_some()).collect();
    match entries.is_empty() {
        true => None,
        false => Some(random.pick(&entries)),
    }
}

/// Alters the area of one entry, or makes a filler of it.
pub fn spoil(random: &mut Random, set: Set, areas: &mut [Option<Area>], phases: usize) {
    let (Some(index), Some(other)) = (random_entry(random, areas), random_entry(random, areas))
    else {
        return;
    };
    let area = areas[index].expect("an entry");
    let beside = areas[other].expect("an entry");
    areas[index] = match random.up_to(9) {
        0 => None,
        1 => Some(out_of_range(random, set, area, phases)),
        2 => Some(huge(random, set, area)),
        3 | 4 => Some(overlapping(random, beside)),
        5 => {
            areas[other] = Some(area);
            Some(beside)
        }
        6 => Some((area.0, area.1, area.2.wrapping_add(1))),
        _ => Some(moved(random, area)),
    };
}

/// Begins one byte before the area or one behind its first, and ends where it
/// does, or so much earlier or later.
fn moved(random: &mut Random, (phase, offset, length): Area) -> Area {
    match random.up_to(3) {
        0 => (phase, offset.wrapping_sub(1), length),
        1 => (phase, offset.wrapping_sub(1), length.wrapping_add(1)),
        2 => (phase, offset.wrapping_add(1), length),
        _ => (phase, offset.wrapping_add(1), length.wrapping_sub(1)),
    }
}

fn out_of_range(
    random: &mut Random,
    set: Set,
    (phase, offset, length): Area,
    phases: usize,
) -> Area {
    let Set {
        data_limit: limit,
        log_capacity: capacity,
        ..
    } = set;
    let lengths = [0, limit + 1, limit + 2, 1 << 16, u32::MAX];
    let offsets = [capacity - 1, capacity, 1 << 16, 1 << 31];
    match random.up_to(2) {
        0 => (random.pick(&[0, phases as u8 + 1, 9, 255]), offset, length),
        1 => (phase, offset, random.pick(&lengths)),
        _ => (phase, random.pick(&offsets), length),
    }
}

/// The end of the area, taken in 32 bits, stands within the log.
fn huge(random: &mut Random, set: Set, (phase, offset, length): Area) -> Area {
    let limit = set.data_limit;
    match random.up_to(2) {
        0 => (phase, 0u32.wrapping_sub(length), length),
        1 => {
            let before = random.up_to(limit as usize) as u32;
            (phase, 0u32.wrapping_sub(before), limit)
        }
        _ => (phase, offset, 0u32.wrapping_sub(random.up_to(9) as u32)),
    }
}

/// An area that shares bytes with this one or just touches it.
fn overlapping(random: &mut Random, (phase, offset, length): Area) -> Area {
    let end = offset.wrapping_add(length);
    let before = offset.saturating_sub(1);
    let inside = offset.wrapping_add(random.up_to(length as usize) as u32);
    match random.up_to(5) {
        0 => (phase, offset, length),
        1 => (phase, before, 2),
        2 => (phase, end.wrapping_sub(1), 2),
        3 => (phase, before, length.wrapping_add(2)),
        4 => (phase, end, 1),
        _ => (phase, inside, 1),
    }
}
