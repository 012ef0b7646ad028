//! SHA-256 and HMAC-SHA-256 in plain Rust, written from the standards for
//! comparison. Independent of the static library.

mod hmac;
mod sha256;

pub use hmac::hmac_sha256;
pub use sha256::sha256;
