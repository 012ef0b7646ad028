//! Material made by somebody who knows every key: whatever the items say, the
//! tags are right.

use pahyndoi::model::{
    Head, Header, Item, KEY_LENGTH, Material, Position, Set, chunk, position, ratchet_head,
};

use crate::areas::{Area, random_areas, spoil};
use crate::device::{Shape, front};
use crate::messages::{Message, Rules};
use crate::presentation::{Presentation, length_bytes};
use crate::random::Random;
use crate::sets::in_effect;

pub fn random_forgery(random: &mut Random, own_set: Option<Set>) -> Presentation {
    let phases = random.pick(&[1, 1, 2, 2, 3, 8]);
    let set = in_effect(own_set);
    let (mut lengths, mut areas) = random_areas(random, set, phases);
    for _ in 0..random.pick(&[0, 0, 1, 1, 2]) {
        spoil(random, set, &mut areas, phases);
    }
    if random.once_in(12) {
        let length = &mut lengths[random.index(phases)];
        *length = length.wrapping_add_signed(random.pick(&[1, -1, 40]));
    }
    forge(random, own_set, &lengths, areas)
}

/// Seals the areas, filled up to whole chunks, often with restarts among them;
/// now and then the items are too many or too few, one has another place, a
/// restart is not as it should be, or tags have another length.
fn forge(
    random: &mut Random,
    own_set: Option<Set>,
    lengths: &[u32],
    areas: Vec<Option<Area>>,
) -> Presentation {
    let ratchet = match random.once_in(40) {
        true => 256,
        false => random.pick(&[1, 1, 2, 3, 5, 16]),
    };
    let between = random.pick(&[1, 2, 4, 10]);
    let mut heads = match random.once_in(2) {
        true => heads_with_restarts(&areas, ratchet as u32, |_| random.once_in(between)),
        false => heads_with_restarts(&areas, ratchet as u32, |_| false),
    };
    let mut burned = heads.last().map_or(0, chunks_up_to);
    alter_count(random, &mut heads, &mut burned, ratchet as u32);
    let shape = shape(random, own_set, burned, ratchet, lengths);
    alter_restart(random, &mut heads, ratchet as u32);
    let mut places: Vec<Position> = heads.iter().map(Head::position).collect();
    if alter_position(random, &mut heads, &shape) {
        places = heads.iter().map(Head::position).collect();
    }
    let forger = Forger::new(&shape.material(random), burned, lengths, Rules::RIGHT);
    let mut items = forger.seal_all(&heads, &places);
    alter_tags(random, shape.set(), &mut items);
    forger.present(&items)
}

/// How many chunks are used up to this item.
fn chunks_up_to(head: &Head) -> usize {
    head.position().chunk as usize + 1
}

/// Seals the areas in their places, each chunk for one item.
pub fn seal_areas(
    random: &mut Random,
    own_set: Option<Set>,
    lengths: &[u32],
    areas: &[Option<Area>],
) -> Presentation {
    let tags = vec![in_effect(own_set).tag_length.into(); areas.len()];
    seal_with_tags(random, own_set, lengths, areas, &tags)
}

/// The same with a tag length for each item, whatever the set says.
pub fn seal_with_tags(
    random: &mut Random,
    own_set: Option<Set>,
    lengths: &[u32],
    areas: &[Option<Area>],
    tags: &[usize],
) -> Presentation {
    let shape = shape(random, own_set, areas.len(), 1, lengths);
    let heads = heads(areas, 1);
    seal_by(&shape.material(random), lengths, &heads, tags, Rules::RIGHT)
}

/// So many chunks that the areas fill them with fillers behind.
pub fn filled_up(
    own_set: Option<Set>,
    ratchet: usize,
    phases: usize,
    mut areas: Vec<Option<Area>>,
) -> (Shape, Vec<Option<Area>>) {
    let chunk_count = areas.len().div_ceil(ratchet).max(1);
    areas.resize(chunk_count * ratchet, None);
    let shape = Shape {
        own_set,
        phases,
        chunk_count,
        ratchet,
        seal_memory: 0,
    };
    (shape, areas)
}

/// The same as heads, with restarts where they are wanted. There is at least one
/// filler.
pub fn filled_up_with_restarts(
    own_set: Option<Set>,
    ratchet: usize,
    phases: usize,
    areas: &[Option<Area>],
    wanted: impl FnMut(Position) -> bool,
) -> (Shape, Vec<Head>) {
    let filler = [None];
    let areas = if areas.is_empty() { &filler } else { areas };
    let heads = heads_with_restarts(areas, ratchet as u32, wanted);
    let shape = Shape {
        own_set,
        phases,
        chunk_count: heads.last().map_or(1, chunks_up_to),
        ratchet,
        seal_memory: 0,
    };
    (shape, heads)
}

/// Seals the areas in their places under the keys of an unused store, by these
/// rules.
pub fn seal(
    unused: &Material,
    set: Set,
    lengths: &[u32],
    areas: &[Option<Area>],
    rules: Rules,
) -> Presentation {
    let ratchet = Header::parse(&unused.store).expect("a store").ratchet;
    seal_heads(unused, set, lengths, &heads(areas, ratchet), rules)
}

/// The same of heads in the places that they name. The chunks up to the last one
/// are burned.
pub fn seal_heads(
    unused: &Material,
    set: Set,
    lengths: &[u32],
    heads: &[Head],
    rules: Rules,
) -> Presentation {
    let tags = vec![usize::from(set.tag_length); heads.len()];
    seal_by(unused, lengths, heads, &tags, rules)
}

/// The same with a tag length for each item.
fn seal_by(
    unused: &Material,
    lengths: &[u32],
    heads: &[Head],
    tags: &[usize],
    rules: Rules,
) -> Presentation {
    let burned = heads.last().map_or(0, chunks_up_to);
    let forger = Forger::new(unused, burned, lengths, rules);
    let mut items = forger.seal_in_place(heads);
    cut_tags(&mut items, tags);
    forger.present(&items)
}

/// A store with this many burned chunks, sometimes with others behind them.
fn shape(
    random: &mut Random,
    own_set: Option<Set>,
    burned: usize,
    ratchet: usize,
    lengths: &[u32],
) -> Shape {
    Shape {
        own_set,
        phases: lengths.len(),
        chunk_count: (burned + random.up_to(2)).clamp(1, 1024),
        ratchet,
        seal_memory: 0,
    }
}

/// Cuts whole tags as the set says; now and then one of them, or all, as
/// another set would.
fn alter_tags(random: &mut Random, set: Set, items: &mut [Item]) {
    let right = usize::from(set.tag_length);
    let mut lengths = vec![right; items.len()];
    if !items.is_empty() && random.once_in(16) {
        let any = random.between(16, 32);
        let other = random.pick(&[right - 1, right + 1, 16, 32, any]);
        match random.once_in(2) {
            true => lengths.fill(other),
            false => lengths[random.index(items.len())] = other,
        }
    }
    cut_tags(items, &lengths);
}

/// Behind the whole tag stand zeros.
fn cut_tags(items: &mut [Item], lengths: &[usize]) {
    for (item, length) in items.iter_mut().zip(lengths) {
        item.tag.resize(*length, 0);
    }
}

fn alter_count(random: &mut Random, heads: &mut Vec<Head>, burned: &mut usize, ratchet: u32) {
    match random.up_to(19) {
        0 => heads.push(head(None, due_behind(heads, ratchet))),
        1 => drop(heads.pop()),
        2 => *burned += 1,
        3 => *burned = burned.saturating_sub(1),
        4 => heads.truncate(random.up_to(heads.len())),
        _ => (),
    }
}

/// Each in the place of its number, as where no restart stands.
fn heads(areas: &[Option<Area>], ratchet: u32) -> Vec<Head> {
    let places = (0..).map(|number| position(number, ratchet));
    let head = |(area, position): (&Option<Area>, Position)| head(*area, position);
    areas.iter().zip(places).map(head).collect()
}

fn head(area: Option<Area>, position: Position) -> Head {
    match area {
        None => Head::Filler { position },
        Some((phase, offset, length)) => Head::Entry {
            phase,
            offset,
            length,
            position,
        },
    }
}

/// Where an entry or a filler is due behind these.
pub fn due_behind(heads: &[Head], ratchet: u32) -> Position {
    let last = heads.last().map(Head::position);
    last.map_or(Position::default(), |place| place.next(ratchet))
}

/// The restart that may stand where this is due, in the middle of a chunk.
pub fn restart_at(due: Position) -> Head {
    Head::Restart {
        position: due.next_chunk(),
        number: due.offset,
    }
}

/// Each where it is due, with a restart before it where one may stand and is
/// wanted; then fillers to the end of the chunk.
pub fn heads_with_restarts(
    areas: &[Option<Area>],
    ratchet: u32,
    mut wanted: impl FnMut(Position) -> bool,
) -> Vec<Head> {
    let mut heads = Vec::new();
    for area in areas {
        let due = due_behind(&heads, ratchet);
        if due.offset > 0 && wanted(due) {
            heads.push(restart_at(due));
        }
        heads.push(head(*area, due_behind(&heads, ratchet)));
    }
    while due_behind(&heads, ratchet).offset > 0 {
        heads.push(head(None, due_behind(&heads, ratchet)));
    }
    heads
}

/// Now and then alters a restart, makes one of another item, leaves one out or
/// puts one in, all others staying where they are.
fn alter_restart(random: &mut Random, heads: &mut Vec<Head>, ratchet: u32) {
    if heads.is_empty() || !random.once_in(6) {
        return;
    }
    let restarts: Vec<usize> = (0..heads.len())
        .filter(|number| matches!(heads[*number], Head::Restart { .. }))
        .collect();
    let any = random.index(heads.len());
    let due = due_behind(&heads[..any], ratchet);
    match random.up_to(5) {
        0 | 1 if !restarts.is_empty() => {
            let restart = random.pick(&restarts);
            heads[restart] = with_other_number(random, heads[restart], ratchet);
        }
        2 if !restarts.is_empty() => drop(heads.remove(random.pick(&restarts))),
        3 => heads.insert(any, restart_at(due)),
        4 => heads[any] = restart_at(due),
        _ => {
            let (position, number) = (due, random.up_to(ratchet as usize) as u32);
            heads[any] = Head::Restart { position, number };
        }
    }
}

fn with_other_number(random: &mut Random, head: Head, ratchet: u32) -> Head {
    let Head::Restart { position, number } = head else {
        return head;
    };
    let number = match random.up_to(3) {
        0 => number.wrapping_sub(1),
        1 => number + 1,
        2 => random.pick(&[0, 1, ratchet - 1, ratchet, u32::MAX]),
        _ => number | (1 << random.between(8, 31)),
    };
    Head::Restart { position, number }
}

/// Now and then gives one item another place: a neighbour's, its own with both
/// numbers exchanged, or the byte offset of its chunk. Answers whether its key
/// is that of the claimed place.
fn alter_position(random: &mut Random, heads: &mut [Head], shape: &Shape) -> bool {
    if heads.is_empty() || !random.once_in(8) {
        return false;
    }
    let ratchet = shape.ratchet as u32;
    let head = random.index(heads.len());
    let (Head::Entry { position, .. } | Head::Filler { position } | Head::Restart { position, .. }) =
        &mut heads[head];
    let Position { chunk, offset } = *position;
    *position = match random.up_to(5) {
        0 => position.next(ratchet),
        1 => Position {
            chunk: offset,
            offset: chunk,
        },
        2 => Position {
            chunk: shape.header_length() as u32 + 32 * chunk,
            offset,
        },
        3 => Position {
            chunk: chunk | (1 << random.between(10, 31)),
            offset,
        },
        4 => Position {
            chunk,
            offset: offset | (1 << random.between(8, 31)),
        },
        _ => Position {
            chunk: chunk.wrapping_sub(1),
            offset: offset + ratchet,
        },
    };
    random.once_in(2)
}

pub struct Forger {
    rules: Rules,
    presentation: Presentation,
    /// All keys of the store, one chunk behind the other.
    keys: Vec<[u8; KEY_LENGTH]>,
    header: Header,
}

impl Forger {
    pub fn new(unused: &Material, burned: usize, lengths: &[u32], rules: Rules) -> Forger {
        let header = Header::parse(&unused.store).expect("a store");
        let mut device_store = unused.store.clone();
        front(&mut device_store, burned.min(header.chunk_count as usize)).fill(0);
        Forger {
            rules,
            keys: all_keys(&unused.store, &header, rules.ratchet),
            header,
            presentation: Presentation {
                device_store,
                auditor_store: unused.store.clone(),
                log_memory: unused.log_memory.clone(),
                length_bytes: length_bytes(lengths),
                seal_file: Vec::new(),
            },
        }
    }

    /// Changes a byte of the log memory that is then sealed.
    pub fn change_log(&mut self, place: usize, change: u8) {
        self.presentation.log_memory[place] ^= change;
    }

    /// Each item under the key of the place that it names, with its whole tag.
    pub fn seal_in_place(&self, heads: &[Head]) -> Vec<Item> {
        let places: Vec<Position> = heads.iter().map(Head::position).collect();
        self.seal_all(heads, &places)
    }

    /// Each item under the key of a place, with its whole tag; under zeros where
    /// the store has no such key.
    pub fn seal_all(&self, heads: &[Head], places: &[Position]) -> Vec<Item> {
        let ratchet = self.header.ratchet;
        let seal = |(head, place): (&Head, &Position)| {
            let index = match place.offset < ratchet && place.chunk < self.header.chunk_count {
                true => place.key_number(ratchet) as usize,
                false => self.keys.len(),
            };
            let key = self.keys.get(index).unwrap_or(&[0; KEY_LENGTH]);
            let message = self.rules.items;
            let tag = message.tag(&self.header.id, key, &head.to_bytes(), self.data(head));
            Item {
                head: *head,
                tag: tag.to_vec(),
            }
        };
        heads.iter().zip(places).map(seal).collect()
    }

    /// With the tags cut as the set says.
    pub fn present_cut(self, set: Set, mut items: Vec<Item>) -> Presentation {
        let lengths = vec![usize::from(set.tag_length); items.len()];
        cut_tags(&mut items, &lengths);
        self.present(&items)
    }

    fn present(mut self, items: &[Item]) -> Presentation {
        self.presentation.seal_file = items.iter().flat_map(Item::to_bytes).collect();
        self.presentation
    }

    /// The data in the area; none where it leaves the memory.
    fn data(&self, head: &Head) -> &[u8] {
        let Head::Entry {
            phase,
            offset,
            length,
            ..
        } = *head
        else {
            return &[];
        };
        let start = self.header.log_start(phase.max(1)) + offset as usize;
        let area = start..start + length as usize;
        self.presentation.log_memory.get(area).unwrap_or_default()
    }
}

fn all_keys(store: &[u8], header: &Header, message: Message) -> Vec<[u8; KEY_LENGTH]> {
    let mut keys: Vec<[u8; KEY_LENGTH]> = Vec::new();
    for number in 0..header.chunk_count * header.ratchet {
        let place = position(number, header.ratchet);
        let key = match (place.offset, keys.last()) {
            (1.., Some(key)) => {
                let head = ratchet_head(place.offset, header.ratchet);
                message.tag(&header.id, key, &head, &[])
            }
            _ => chunk(store, place.chunk),
        };
        keys.push(key);
    }
    keys
}
