//! The calls of the static library `pahyndoi`, each of them proved: SHA-256
//! (FIPS 180-4), HMAC-SHA-256 whole or cut (RFC 2104), the sealing of logs
//! ([`open`], [`append`], [`close`], [`restart`]), the [`audit`] of what is presented, which
//! item sealed a byte of it ([`item_at`], [`data_at`]), and the ratchet that a
//! card needs ([`least_ratchet`]).
//!
//! How long tags, data and logs are, the key store says: [`Parameters`] has the
//! sizes that follow.
//!
//! The README has an example, which runs as a test of this package.

mod auditor;
mod ffi;
mod hash;
mod lookup;
pub mod model;
mod parameters;
pub mod plain;
mod planning;
mod refusal;
mod sealer;

pub use auditor::{Material, Rejected, audit};
pub use ffi::{
    State, append_raw, audit_raw, close_raw, data_at_raw, hmac_sha256_raw, item_at_raw,
    least_ratchet_raw, open_raw, restart_raw, sha256_raw,
};
pub use hash::{DIGEST_LENGTH, LENGTH_LIMIT, LONGEST_TAG, SHORTEST_TAG, hmac_sha256, sha256};
pub use lookup::{data_at, item_at};
pub use parameters::{
    CHUNK_LENGTH, COMMON_SET_KIND, HEADER_LENGTH, LARGEST_DATA_LIMIT, LARGEST_LOG_CAPACITY,
    OWN_SET_HEADER_LENGTH, OWN_SET_KIND, Parameters, SMALLEST_DATA_LIMIT, SMALLEST_LOG_CAPACITY,
    store_length,
};
pub use planning::least_ratchet;
pub use refusal::Refusal;
pub use sealer::{append, close, open, restart};

#[cfg(doctest)]
#[doc = include_str!("../../README.md")]
struct Readme;
