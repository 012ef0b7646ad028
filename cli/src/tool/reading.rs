//! What can be read in an audit's material, each part read once.

use pahyndoi::Material;

use super::item::{Damage, Item, items, number_at};
use super::set::Set;
use super::store::Header;

pub struct Reading<'a> {
    pub material: Material<'a>,
    /// The stores' headers, or what is wrong with a store.
    pub device: Result<Header, String>,
    pub auditor: Result<Header, String>,
    /// By which items and logs are read: the device's, else the auditor's, else
    /// that of kind 1.
    pub set: Set,
    /// As many as there are bytes for.
    pub lengths: Vec<u32>,
    /// Those before the damage, else all.
    pub items: Vec<Item>,
    pub damage: Option<Damage>,
}

impl Reading<'_> {
    pub fn of(material: Material<'_>) -> Reading<'_> {
        let lengths = material.lengths.chunks_exact(4);
        let device = Header::read(material.device_store);
        let auditor = Header::read(material.auditor_store);
        let known = device.as_ref().or(auditor.as_ref());
        let set = known.map_or(Set::COMMON, Header::set);
        let mut reading = Reading {
            material,
            device,
            auditor,
            set,
            lengths: lengths.map(|four| number_at(four, 0)).collect(),
            items: Vec::new(),
            damage: None,
        };
        for item in items(set, material.seal_file) {
            match item {
                Ok(item) => reading.items.push(item),
                Err(damage) => reading.damage = Some(damage),
            }
        }
        reading
    }
}

#[cfg(test)]
pub mod tests {
    use super::super::item::entry_length;
    use super::super::store::CHUNK_LENGTH;
    use super::*;

    /// A reading without stores and logs.
    pub fn reading<'a>(lengths: &'a [u8], seal_file: &'a [u8]) -> Reading<'a> {
        reading_with(&[], lengths, seal_file)
    }

    /// A reading with this store as the device's.
    pub fn reading_with<'a>(
        device_store: &'a [u8],
        lengths: &'a [u8],
        seal_file: &'a [u8],
    ) -> Reading<'a> {
        Reading::of(Material {
            device_store,
            auditor_store: &[],
            logs: &[],
            lengths,
            seal_file,
        })
    }

    /// A store of kind 6.
    pub fn store(set: Set) -> Vec<u8> {
        let header = Header {
            id: [0; 8],
            phases: 1,
            chunks: 1,
            ratchet: 1,
            own_set: Some(set),
        };
        [header.to_bytes(), vec![7; CHUNK_LENGTH]].concat()
    }

    /// A seal file of entries with these phases, offsets and lengths.
    pub fn seal_file(areas: &[(u8, u32, u32)]) -> Vec<u8> {
        seal_file_with(Set::COMMON, areas)
    }

    pub fn seal_file_with(set: Set, areas: &[(u8, u32, u32)]) -> Vec<u8> {
        let entry = |(phase, offset, length): &(u8, u32, u32)| {
            let mut bytes = vec![2, *phase];
            bytes.extend(offset.to_le_bytes());
            bytes.extend(length.to_le_bytes());
            bytes.resize(entry_length(set), 0);
            bytes
        };
        areas.iter().flat_map(entry).collect()
    }

    pub fn lengths(numbers: &[u32]) -> Vec<u8> {
        let bytes = numbers.iter().flat_map(|number| number.to_le_bytes());
        bytes.collect()
    }

    #[test]
    fn odd_lengths_give_the_numbers_they_can() {
        assert_eq!(reading(&[1, 0, 0, 0, 9, 9], &[]).lengths, [1]);
    }

    /// The device's set counts; a store that is malformed has none.
    #[test]
    fn set_is_the_devices_else_the_auditors() {
        let [one, other] = [16, 17].map(|tag_length| Set {
            tag_length,
            ..Set::COMMON
        });
        let (device, auditor) = (store(one), store(other));
        for (device_store, auditor_store, set) in [
            (&device[..], &auditor[..], one),
            (&device, &[], one),
            (&device[1..], &auditor, other),
            (&[], &auditor[1..], Set::COMMON),
        ] {
            let material = Material {
                device_store,
                auditor_store,
                logs: &[],
                lengths: &[],
                seal_file: &[],
            };
            assert_eq!(Reading::of(material).set, set);
        }
    }

    #[test]
    fn items_before_damage_are_read() {
        let seal = seal_file(&[(1, 0, 1), (1, 1, 1)]);
        let reading = reading(&[], &seal[..99]);
        assert_eq!(reading.items.len(), 1);
        assert_eq!(reading.damage.map(|damage| damage.item), Some(1));
    }
}
