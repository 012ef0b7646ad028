//! Bytes of presented material looked up by library and model, and the way
//! from an entry to its bytes and back.

use pahyndoi::model::{Audited, Header};
use pahyndoi::{Material, data_at, data_at_raw, item_at, item_at_raw};

use crate::answer::split;
use crate::areas::Area;
use crate::places::{Place, entries};
use crate::random::Random;

/// The packed answer of `item_at`. Fails where it, or the place of the data,
/// is not the model's.
pub fn compare(material: &Material, audited: &Audited, place: Place) -> u64 {
    let (phase, offset) = place;
    let item = raw(item_at_raw, material, place);
    let data = raw(data_at_raw, material, place);
    let models_item = audited.item_at(phase, offset).packed();
    let models_data = audited.data_at(phase, offset);
    assert_eq!(
        split(item),
        split(models_item),
        "items, phase {phase}, offset {offset}: ours, model's"
    );
    assert_eq!(
        split(data),
        (models_data.start as u32, models_data.len() as u32),
        "data, phase {phase}, offset {offset}: ours, model's"
    );
    item
}

type Call = fn(&[u8], &[u8], &[u8], &[u8], &[u8], u8, u32) -> u64;

fn raw(call: Call, material: &Material, (phase, offset): Place) -> u64 {
    let Material {
        device_store: device,
        auditor_store: auditor,
        logs,
        lengths,
        seal_file: seal,
    } = *material;
    call(device, auditor, logs, lengths, seal, phase, offset)
}

/// Goes from up to so many entries of accepted material to the first, the last
/// and another byte of their areas and back. Answers how many bytes were
/// looked up.
pub fn go_there_and_back(random: &mut Random, material: &Material, most: usize) -> usize {
    let header = Header::parse(material.device_store).expect("a store");
    let mut entries = entries(header.set(), material.seal_file);
    random.shuffle(&mut entries);
    entries.truncate(most);
    let mut looked_up = 0;
    for (number, area) in entries {
        let (_, first, length) = area;
        let other = first + random.index(length as usize) as u32;
        let mut offsets = vec![first, other, first + length - 1];
        offsets.sort_unstable();
        offsets.dedup();
        looked_up += offsets.len();
        for offset in offsets {
            assert_leads_back(material, &header, (number, area), offset);
        }
    }
    looked_up
}

/// Fails where a byte of an area does not lead to the entry, or not to the
/// very part of the lent logs that the area is.
fn assert_leads_back(
    material: &Material,
    header: &Header,
    (number, area): (u32, Area),
    offset: u32,
) {
    let (phase, first, length) = area;
    assert_eq!(
        item_at(material, phase, offset),
        Ok(number.into()),
        "item of byte {offset} of phase {phase}"
    );
    let start = header.log_start(phase) + first as usize;
    let expected = &material.logs[start..start + length as usize];
    let data = data_at(material, phase, offset);
    assert_eq!(
        data.as_ptr_range(),
        expected.as_ptr_range(),
        "data of byte {offset} of phase {phase}"
    );
}
