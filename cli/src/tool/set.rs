//! The parameters that a store sets.

use std::fmt;
use std::ops::RangeInclusive;

use super::item::number_at;
use super::json::Value;
use super::text::grouped;

pub const TAG_LENGTHS: RangeInclusive<u32> = 16..=32;
pub const DATA_LIMITS: RangeInclusive<u32> = 1..=4096;
pub const LOG_CAPACITIES: RangeInclusive<u32> = 512..=65_536;

/// The bytes of a set in a header.
pub const SET_LENGTH: usize = 9;

#[derive(Clone, Copy, Debug, PartialEq, Eq)]
pub struct Set {
    /// The bytes of an item's tag.
    pub tag_length: u8,
    /// The longest data of one entry.
    pub data_limit: u32,
    /// The bytes of one phase's log in the log memory.
    pub log_capacity: u32,
}

impl Set {
    /// That of every store of kind 1.
    pub const COMMON: Set = Set {
        tag_length: 32,
        data_limit: 512,
        log_capacity: 8192,
    };

    /// The set in these 9 bytes, whether in range or not.
    pub fn read(bytes: &[u8]) -> Set {
        Set {
            tag_length: bytes[0],
            data_limit: number_at(bytes, 1),
            log_capacity: number_at(bytes, 5),
        }
    }

    pub fn to_bytes(self) -> Vec<u8> {
        let mut bytes = vec![self.tag_length];
        bytes.extend(self.data_limit.to_le_bytes());
        bytes.extend(self.log_capacity.to_le_bytes());
        bytes
    }

    /// Whether a log has room for the longest data.
    pub fn log_takes_data(&self) -> bool {
        self.log_capacity >= self.data_limit
    }

    pub fn json(&self) -> Value {
        Value::Object(vec![
            ("tag_length", Value::Number(self.tag_length.into())),
            ("data_limit", Value::Number(self.data_limit.into())),
            ("log_capacity", Value::Number(self.log_capacity.into())),
        ])
    }

    /// Where the log of a phase, 1 or more, begins in the log memory.
    pub fn log_start(&self, phase: u8) -> usize {
        self.log_capacity as usize * (usize::from(phase) - 1)
    }
}

impl fmt::Display for Set {
    fn fmt(&self, formatter: &mut fmt::Formatter<'_>) -> fmt::Result {
        write!(
            formatter,
            "tag length {}, data limit {}, log capacity {}",
            self.tag_length,
            grouped(self.data_limit.into()),
            grouped(self.log_capacity.into())
        )
    }
}
