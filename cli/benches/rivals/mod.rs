//! The model's rivals: it takes any HMAC, here those that the hash itself is
//! measured against.

#[path = "../limit/mod.rs"]
#[expect(dead_code, reason = "its SHA-256 alone is for the hash's benchmark")]
mod limit;
#[path = "../rival/mod.rs"]
#[expect(dead_code, reason = "its SHA-256 alone is for the hash's benchmark")]
mod rival;

use std::cell::RefCell;

use pahyndoi::model::Hmac;
use pahyndoi::plain;

/// The columns, in the order of the contenders after ours.
pub const NAMES: [&str; 3] = ["portable C", "libcrypto", "plain Rust"];

pub const HMACS: [Hmac; 3] = [portable_c, libcrypto, plain_rust];

thread_local! {
    /// Where a message is joined. It grows with the longest and then stays.
    static MESSAGE: RefCell<Vec<u8>> = const { RefCell::new(Vec::new()) };
}

pub fn print_heading(calls: &str) {
    println!("Ratios: the rival's time / our time. 1.00 is level, above it ours is faster.");
    println!("Each time is the minimum over many rounds, contenders taking turns.");
    println!("The rivals are {calls} of src/model with another HMAC:");
    println!("  portable C  benches/rival/sha256.c by cc -O3");
    println!("  libcrypto   its low-level calls, by the processor's SHA instructions if any");
    println!("  plain Rust  the textbook code of src/plain");
    println!();
}

fn portable_c(key: &[u8], parts: &[&[u8]]) -> [u8; 32] {
    with_message(parts, |message| rival::hmac_sha256(key, message))
}

fn libcrypto(key: &[u8], parts: &[&[u8]]) -> [u8; 32] {
    with_message(parts, |message| limit::hmac_sha256(key, message))
}

fn plain_rust(key: &[u8], parts: &[&[u8]]) -> [u8; 32] {
    with_message(parts, |message| plain::hmac_sha256(key, message))
}

/// Joins the parts without asking for memory, and without clearing any, which
/// would take their time.
fn with_message(parts: &[&[u8]], hmac: impl Fn(&[u8]) -> [u8; 32]) -> [u8; 32] {
    MESSAGE.with_borrow_mut(|message| {
        message.clear();
        for part in parts {
            message.extend_from_slice(part);
        }
        hmac(message)
    })
}
