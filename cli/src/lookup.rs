//! Which item sealed a byte of audited material, and what it sealed with it.

use crate::auditor::unpacked;
use crate::{Material, Rejected, data_at_raw, item_at_raw};

/// The number of the item, counted from 0, that sealed the byte at the offset
/// of the phase's log: on accepted material exactly one did.
///
/// Refused as the [`audit`](crate::audit) is, and then by 24, where the phase
/// is not one of the store's or the offset is not below its length.
pub fn item_at(material: &Material, phase: u8, offset: u32) -> Result<u64, Rejected> {
    let Material {
        device_store,
        auditor_store,
        logs,
        lengths,
        seal_file,
    } = *material;
    unpacked(item_at_raw(
        device_store,
        auditor_store,
        logs,
        lengths,
        seal_file,
        phase,
        offset,
    ))
}

/// The part of the log memory that the data of that item occupy, all of them
/// and not only the byte asked for; empty exactly where [`item_at`] is refused.
pub fn data_at<'a>(material: &Material<'a>, phase: u8, offset: u32) -> &'a [u8] {
    let Material {
        device_store,
        auditor_store,
        logs,
        lengths,
        seal_file,
    } = *material;
    let answer = data_at_raw(
        device_store,
        auditor_store,
        logs,
        lengths,
        seal_file,
        phase,
        offset,
    );
    let (place, length) = ((answer >> 32) as usize, answer as u32 as usize);
    &logs[place..place + length]
}
