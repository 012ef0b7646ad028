//! What an auditor does: the audit.

use std::error::Error;
use std::fmt;

use crate::{Refusal, audit_raw};

/// The rules that speak of one item.
const ITEM_RULES: std::ops::RangeInclusive<u32> = 15..=21;

/// What is presented to an audit. It writes none of it.
#[derive(Clone, Copy, Debug)]
pub struct Material<'a> {
    /// The key store as it came home, its used chunks burned.
    pub device_store: &'a [u8],
    /// The auditor's copy of the unused store.
    pub auditor_store: &'a [u8],
    /// The log memory: the store's log capacity for each phase.
    pub logs: &'a [u8],
    /// The log lengths: 4 bytes a phase, little-endian.
    pub lengths: &'a [u8],
    /// The items, without anything after them.
    pub seal_file: &'a [u8],
}

/// An audit's refusal, or a lookup's.
#[derive(Clone, Copy, Debug, PartialEq, Eq)]
pub struct Rejected {
    pub refusal: Refusal,
    /// The number of the item at fault, counted from 0, for the rules 15 to
    /// 21; the others speak of no single item.
    pub item: Option<u32>,
}

impl fmt::Display for Rejected {
    fn fmt(&self, formatter: &mut fmt::Formatter<'_>) -> fmt::Result {
        let Refusal(number) = self.refusal;
        write!(formatter, "refused by rule {number}")?;
        if let Some(item) = self.item {
            write!(formatter, " at item {item}")?;
        }
        write!(formatter, ": {}", self.refusal.meaning())
    }
}

impl Error for Rejected {}

/// Audits the material: the item count when it is accepted, else the first
/// rule that refuses it (2 to 5, or 12 to 23) and the item at fault.
///
/// For every input the answer is the one that the scheme's definition of the
/// audit gives. Material as a controller's history of calls left it is
/// accepted with its true count, where no chunk is half used or every cut one is
/// followed by its restart.
pub fn audit(material: &Material) -> Result<u64, Rejected> {
    let Material {
        device_store,
        auditor_store,
        logs,
        lengths,
        seal_file,
    } = *material;
    unpacked(audit_raw(
        device_store,
        auditor_store,
        logs,
        lengths,
        seal_file,
    ))
}

/// The number that a call answers, or the refusal with the item that it names.
pub(crate) fn unpacked(answer: u64) -> Result<u64, Rejected> {
    match (answer >> 32) as u32 {
        0 => Ok(answer),
        number => Err(Rejected {
            refusal: Refusal(number),
            item: ITEM_RULES.contains(&number).then_some(answer as u32),
        }),
    }
}
