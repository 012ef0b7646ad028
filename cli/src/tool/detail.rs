//! What a reader finds at the place of a refusal. It explains the audit's
//! answer and never decides it.

use pahyndoi::{Material, Rejected};

use super::coverage::Coverage;
use super::due::Due;
use super::item::{Area, Content, Item};
use super::reading::Reading;
use super::store::{Header, burned_at_front, chunks, is_burned};
use super::text::{counted, grouped};

/// None where there is nothing to add to the rule's own words.
pub fn detail(reading: &Reading, rejected: &Rejected) -> Option<String> {
    let material = &reading.material;
    let header = match &reading.device {
        Ok(header) => header,
        Err(wrong) => return Some(format!("The device's store {wrong}.")),
    };
    match rejected.refusal.0 {
        3 => Some(logs_detail(header, material.logs)),
        4 => stray_burned_chunk(material.device_store),
        5 => Some(lengths_detail(header, reading)),
        12 => auditor_detail(reading),
        13 => headers_detail(header, reading),
        14 => differing_chunk(material),
        15..=21 => item_detail(header, reading, rejected),
        22 => Some(missing_detail(header, reading)),
        23 => gap_detail(reading),
        _ => None,
    }
}

/// How many phases there are, or how many bytes the phase has.
pub fn bytes_detail(reading: &Reading, phase: u8) -> Option<String> {
    let phases = reading.device.as_ref().ok()?.phases;
    if !(1..=phases).contains(&phase) {
        return Some(phases_sentence(phases));
    }
    let length = *reading.lengths.get(usize::from(phase - 1))?;
    let length = grouped(length.into());
    Some(format!("The length of phase {phase} is {length}."))
}

fn phases_sentence(phases: u8) -> String {
    format!("Phases are 1 to {phases}.")
}

fn logs_detail(header: &Header, logs: &[u8]) -> String {
    let size = size_words(logs, header.log_memory_length(), header);
    format!("{size}; {}.", capacity_words(header))
}

fn capacity_words(header: &Header) -> String {
    let capacity = grouped(header.set().log_capacity.into());
    format!("the log capacity is {capacity}")
}

/// Of bytes that ought to be so many for all phases.
fn size_words(bytes: &[u8], needed: usize, header: &Header) -> String {
    format!(
        "It has {}, not the {} of {}",
        counted(bytes.len(), "byte"),
        grouped(needed as u64),
        counted(usize::from(header.phases), "phase")
    )
}

fn stray_burned_chunk(store: &[u8]) -> Option<String> {
    let first = burned_at_front(store);
    let burned = chunks(store).skip(first).position(is_burned)?;
    let burned = first + burned;
    Some(format!(
        "Chunk {burned} is burned and chunk {first} is not."
    ))
}

fn lengths_detail(header: &Header, reading: &Reading) -> String {
    let bytes = reading.material.lengths;
    let needed = 4 * usize::from(header.phases);
    if bytes.len() != needed {
        return format!("{}.", size_words(bytes, needed, header));
    }
    let lengths = reading.lengths.iter().enumerate();
    let over: Vec<String> = lengths
        .filter(|(_, length)| **length > header.set().log_capacity)
        .map(|(index, length)| format!("phase {} has {}", index + 1, grouped((*length).into())))
        .collect();
    format!("Too long: {}; {}.", over.join(", "), capacity_words(header))
}

fn auditor_detail(reading: &Reading) -> Option<String> {
    if let Err(wrong) = &reading.auditor {
        return Some(format!("The auditor's store {wrong}."));
    }
    let burned = chunks(reading.material.auditor_store).position(is_burned)?;
    Some(format!("Chunk {burned} of the auditor's store is burned."))
}

fn headers_detail(device: &Header, reading: &Reading) -> Option<String> {
    let auditor = reading.auditor.as_ref().ok()?;
    let (set, other) = (device.set(), auditor.set());
    let fields = [
        ("kind", device.kind() != auditor.kind()),
        ("id", device.id != auditor.id),
        ("phases", device.phases != auditor.phases),
        ("chunk count", device.chunks != auditor.chunks),
        ("ratchet", device.ratchet != auditor.ratchet),
        ("tag length", set.tag_length != other.tag_length),
        ("data limit", set.data_limit != other.data_limit),
        ("log capacity", set.log_capacity != other.log_capacity),
    ];
    let differing = fields.iter().filter(|(_, differs)| *differs);
    let names: Vec<&str> = differing.map(|(name, _)| *name).collect();
    let kinds = kinds_sentence(device, auditor);
    let words = format!("They differ in: {}. {kinds}", names.join(", "));
    Some(words.trim_end().to_string())
}

/// Kinds count though the sets may be the same.
fn kinds_sentence(device: &Header, auditor: &Header) -> String {
    match (device.kind(), auditor.kind()) {
        (one, other) if one == other => String::new(),
        (one, other) => format!("The device's store has kind {one}, the auditor's kind {other}."),
    }
}

fn differing_chunk(material: &Material) -> Option<String> {
    let burned = burned_at_front(material.device_store);
    let pairs = chunks(material.device_store).zip(chunks(material.auditor_store));
    let differing = pairs.skip(burned).position(|(one, other)| one != other)?;
    let number = burned + differing;
    Some(format!("P is {burned}, and chunk {number} differs."))
}

fn item_detail(header: &Header, reading: &Reading, rejected: &Rejected) -> Option<String> {
    let number = rejected.item? as usize;
    let before = reading.items.get(..number)?;
    let due = Due::behind(before, header.ratchet);
    let Some(item) = reading.items.get(number) else {
        let damage = reading.damage?;
        return Some(format!("Damaged from {damage}. Due is {}.", due.words()));
    };
    let more = match rejected.refusal.0 {
        16 => format!("{} {}", due_sentence(item, due), burned_sentence(reading)),
        17 => due_sentence(item, due),
        18 => area_sentence(header, reading, item).unwrap_or_default(),
        19 => below_sentences(reading, item).unwrap_or_default(),
        20 => beyond_sentences(reading, item).unwrap_or_default(),
        _ => String::new(),
    };
    Some(
        format!("{} {more}", item_sentence(item))
            .trim_end()
            .to_string(),
    )
}

pub fn item_sentence(item: &Item) -> String {
    let Item { chunk, ratchet, .. } = item;
    let kind = match item.content {
        Content::Entry(area) => format!(
            "an entry of phase {}, offset {}, {}",
            area.phase,
            grouped(area.offset.into()),
            counted(area.length as usize, "byte"),
        ),
        Content::Filler => "a filler".to_string(),
        Content::Restart(number) => format!("a restart with the number {number}"),
    };
    format!(
        "At byte {} of the seal file stands {kind}, chunk {chunk}, ratchet offset {ratchet}.",
        grouped(item.place.start as u64)
    )
}

/// What is due at the item, and that no restart is, where one stands.
fn due_sentence(item: &Item, due: Due) -> String {
    let words = due.words();
    match item.content {
        Content::Restart(_) if !due.is_half_used() => {
            format!("Due is {words}, and no restart: no chunk is half used.")
        }
        _ => format!("Due is {words}."),
    }
}

fn burned_sentence(reading: &Reading) -> String {
    let burned = burned_at_front(reading.material.device_store);
    format!("P is {burned}.")
}

/// The first part of rule 18 that the item's area meets.
fn area_sentence(header: &Header, reading: &Reading, item: &Item) -> Option<String> {
    let (area, phases) = (item.area()?, header.phases);
    if !(1..=phases).contains(&area.phase) {
        return Some(phases_sentence(phases));
    }
    let Some(bytes) = area.bytes(reading.set) else {
        let limit = grouped(reading.set.data_limit.into());
        return Some(format!("Data lengths are 1 to {limit}."));
    };
    let index = usize::from(area.phase - 1);
    let length = *reading.lengths.get(index)?;
    Some(format!(
        "The area ends at {}, and the phase's length is {}.",
        grouped(bytes.end),
        grouped(length.into())
    ))
}

/// The earlier items of a refused item's phase, the last one first. They are
/// taken, so each ends where the next one of the phase begins.
fn earlier_areas(reading: &Reading, item: &Item) -> impl Iterator<Item = (usize, Area)> {
    let phase = item.area().map(|area| area.phase);
    let earlier = reading.items[..item.number].iter().rev();
    let areas = earlier.filter_map(|other| Some((other.number, other.area()?)));
    areas.filter(move |(_, area)| Some(area.phase) == phase)
}

/// Where the covered bytes of the item's phase end before it.
fn covered_end(reading: &Reading, item: &Item) -> u64 {
    let last = earlier_areas(reading, item).next();
    let bytes = last.and_then(|(_, area)| area.bytes(reading.set));
    bytes.map_or(0, |bytes| bytes.end)
}

fn end_sentence(end: u64) -> String {
    format!("The phase's covered bytes end at {}.", grouped(end))
}

/// The covered end, and which earlier item holds the byte at the item's offset.
fn below_sentences(reading: &Reading, item: &Item) -> Option<String> {
    let offset = u64::from(item.area()?.offset);
    let (number, area) = earlier_areas(reading, item).find(|(_, area)| {
        let bytes = area.bytes(reading.set);
        bytes.is_some_and(|bytes| bytes.contains(&offset))
    })?;
    Some(format!(
        "{} Item {number}, with offset {} and {}, holds byte {}.",
        end_sentence(covered_end(reading, item)),
        grouped(area.offset.into()),
        counted(area.length as usize, "byte"),
        grouped(offset)
    ))
}

/// The covered end, and the bytes from there to the item's offset.
fn beyond_sentences(reading: &Reading, item: &Item) -> Option<String> {
    let (end, offset) = (covered_end(reading, item), u64::from(item.area()?.offset));
    let last = offset.checked_sub(1)?;
    let bytes = match end == last {
        true => format!("byte {}", grouped(end)),
        false => format!("bytes {} to {}", grouped(end), grouped(last)),
    };
    Some(format!(
        "{} No earlier item holds {bytes}.",
        end_sentence(end)
    ))
}

/// What is due at the end, and what would have to be.
fn missing_detail(header: &Header, reading: &Reading) -> String {
    let sealed = counted(reading.items.len(), "item");
    let due = Due::behind(&reading.items, header.ratchet);
    let burned = burned_at_front(reading.material.device_store);
    let half_used = match due.is_half_used() {
        true => format!(" Chunk {} is half used.", due.chunk),
        false => String::new(),
    };
    format!(
        "The seal file has {sealed}. Due after them is {due}, and P is {burned}: it would have to \
         be {}.{half_used}",
        Due::start_of(burned as u64)
    )
}

fn gap_detail(reading: &Reading) -> Option<String> {
    let coverage = Coverage::of(reading.set, &reading.lengths, &reading.items);
    let mut logs = coverage.logs.iter();
    let log = logs.find(|log| log.covered < log.bytes.len())?;
    Some(format!(
        "Of phase {}, {} of {} are covered.",
        log.phase,
        grouped(log.covered as u64),
        counted(log.bytes.len(), "byte")
    ))
}

#[cfg(test)]
mod tests {
    use pahyndoi::Refusal;

    use super::super::reading::tests::{lengths, seal_file};
    use super::*;

    const HEADER: Header = Header {
        id: [0; 8],
        phases: 2,
        chunks: 1,
        ratchet: 32,
        own_set: None,
    };

    /// What is said of an item among entries of these areas, in logs of 100
    /// bytes.
    fn words(rule: u32, item: u32, areas: &[(u8, u32, u32)]) -> String {
        let mut store = HEADER.to_bytes();
        store.resize(50, 0);
        let material = Material {
            device_store: &store,
            auditor_store: &[],
            logs: &[],
            lengths: &lengths(&[100, 100]),
            seal_file: &seal_file(areas),
        };
        let rejected = Rejected {
            refusal: Refusal(rule),
            item: Some(item),
        };
        detail(&Reading::of(material), &rejected).expect("words")
    }

    fn assert_ends(words: &str, expected: &str) {
        assert!(words.ends_with(expected), "{words}");
    }

    /// The first byte, one in the middle and the last one of each area.
    #[test]
    fn item_that_holds_the_byte_is_named() {
        let taken = [(2, 0, 40), (1, 0, 10), (1, 10, 1), (1, 11, 9), (2, 40, 9)];
        for (offset, holder) in [
            (0, "Item 1, with offset 0 and 10 bytes, holds byte 0."),
            (9, "Item 1, with offset 0 and 10 bytes, holds byte 9."),
            (10, "Item 2, with offset 10 and 1 byte, holds byte 10."),
            (11, "Item 3, with offset 11 and 9 bytes, holds byte 11."),
            (15, "Item 3, with offset 11 and 9 bytes, holds byte 15."),
            (19, "Item 3, with offset 11 and 9 bytes, holds byte 19."),
        ] {
            let areas = [&taken[..], &[(1, offset, 30)]].concat();
            let expected = format!(" The phase's covered bytes end at 20. {holder}");
            assert_ends(&words(19, 5, &areas), &expected);
        }
    }

    #[test]
    fn bytes_up_to_the_item_are_named() {
        let taken = [(1, 0, 10), (1, 10, 10), (2, 0, 40)];
        for (offset, gap) in [
            (21, "byte 20"),
            (22, "bytes 20 to 21"),
            (70, "bytes 20 to 69"),
        ] {
            let areas = [&taken[..], &[(1, offset, 30)]].concat();
            let expected =
                format!(" The phase's covered bytes end at 20. No earlier item holds {gap}.");
            assert_ends(&words(20, 3, &areas), &expected);
        }
    }

    /// Neither items of other phases nor later ones of its own count.
    #[test]
    fn gap_before_the_first_item_of_a_phase() {
        let areas = [(2, 0, 40), (1, 1, 10), (1, 0, 1)];
        let expected = " The phase's covered bytes end at 0. No earlier item holds byte 0.";
        assert_ends(&words(20, 1, &areas), expected);
    }

    #[test]
    fn numbers_are_grouped() {
        let areas = [(1, 0, 512), (1, 512, 512), (1, 1024, 512), (1, 1535, 512)];
        let expected = " end at 1,536. Item 2, with offset 1,024 and 512 bytes, holds byte 1,535.";
        assert_ends(&words(19, 3, &areas), expected);
        let areas = [(1, 5000, 1)];
        assert_ends(&words(20, 0, &areas), " bytes 0 to 4,999.");
    }
}
