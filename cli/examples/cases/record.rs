//! A script's records: 64 bytes each, the operation first, numbers
//! little-endian.

pub const RECORD_LENGTH: usize = 64;

/// A label's text: ASCII, zeros behind it.
pub const LABEL: u8 = 0;

/// New store, memories and state of zeros, no auditor's store. 1: kind,
/// 2: phases, 3: how many bytes of a set the header has, 4: chunk count, 8: N,
/// 12: store length, 16: log memory length, 20: seal memory length, 24: the
/// set's bytes.
pub const MATERIAL: u8 = 1;

/// 1: the number of lengths, 8: seal length (8 bytes), 16: nine lengths.
pub const OPEN: u8 = 2;

/// 1: phase, 4: data length, 8: the data's first byte.
pub const APPEND: u8 = 3;

pub const CLOSE: u8 = 4;

/// 1: which field of the state, 2: index or byte, 4: number, 8: number of 8
/// bytes.
pub const SET_STATE: u8 = 5;

/// 1: which memory, 2: how many bytes, 4: index, 8: the bytes.
pub const SET_BYTES: u8 = 6;

/// 1: which memory, 4: length. Zeros are added at the end where it grows.
pub const SET_LENGTH: u8 = 7;

/// The auditor's store becomes a copy of the present store.
pub const KEEP: u8 = 8;

/// 1: the number of lengths, 4: how many bytes of the seal memory are the seal
/// file, 16: nine lengths.
pub const AUDIT: u8 = 9;

/// As for the audit, and 2: phase, 8: offset.
pub const LOOKUP: u8 = 10;

/// 1: the number of counts, 2: the place of the first listed one, 4: chunk
/// count, 8: the count at the other places, 16: twelve listed counts.
pub const PLAN: u8 = 11;

/// 4: number.
pub const RESTART: u8 = 12;

pub const FIELD_CHUNK: u8 = 0;
pub const FIELD_OFFSET: u8 = 1;
pub const FIELD_SEAL_LENGTH: u8 = 2;
pub const FIELD_LOG_LENGTH: u8 = 3;
pub const FIELD_HELD_KEY: u8 = 4;

pub const MEMORY_STORE: u8 = 0;
pub const MEMORY_LOGS: u8 = 1;
pub const MEMORY_SEAL: u8 = 2;
pub const MEMORY_AUDITOR: u8 = 3;

/// The most bytes that one record sets.
pub const BYTES_LIMIT: usize = 54;

pub const BYTES_START: usize = 8;

/// The most lengths that one record lends.
pub const LENGTHS_LIMIT: usize = 9;

pub const LENGTHS_START: usize = 16;

pub const SET_START: usize = 24;

/// The most counts that one record lends.
pub const COUNTS_LIMIT: usize = 66;

/// How many of them one record lists.
pub const LISTED_COUNTS: usize = 12;

pub const LISTED_START: usize = 16;

/// The longest that a program reading the script must hold.
pub const SCRIPT_LIMIT: usize = 262_144;
pub const STORE_LIMIT: u32 = 40_000;
pub const SEAL_MEMORY_LIMIT: u32 = 16_384;

/// Two of the longest logs, and one byte more.
pub const LOG_MEMORY_LIMIT: u32 = 131_073;

/// The longest data, and one byte more.
pub const DATA_LIMIT: u32 = 4097;
