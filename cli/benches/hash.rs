//! How fast the proved functions are beside portable C, libcrypto and plain
//! Rust, all measured in one run.

#[path = "../tests/common/libcrypto.rs"]
mod libcrypto;
#[path = "limit/mod.rs"]
mod limit;
#[path = "rival/mod.rs"]
mod rival;
#[path = "timing/mod.rs"]
mod timing;

use std::hint::black_box;
use std::time::Duration;

use pahyndoi::{LONGEST_TAG, SHORTEST_TAG, hmac_sha256_raw, plain, sha256_raw};
use timing::{Contender, minimum_times};

const SHA256_LENGTHS: [(&str, usize); 5] = [
    ("55 B", 55),
    ("64 B", 64),
    ("119 B", 119),
    ("1 KiB", 1024),
    ("1 MiB", 1_048_576),
];
const HMAC_LENGTHS: [(&str, usize); 3] = [("34 B", 34), ("64 B", 64), ("512 B", 512)];
const ALL_ROUNDS: Duration = Duration::from_millis(1500);
const KEY: [u8; 32] = [0x4b; 32];

/// The columns, in the order of the contenders after ours.
const RIVALS: [&str; 4] = ["portable C", "libcrypto", "limit", "plain Rust"];

fn proved_sha256(message: &[u8]) -> [u8; 32] {
    let mut digest = [0; 32];
    assert_eq!(sha256_raw(message, &mut digest), 0);
    digest
}

fn proved_hmac_sha256(key: &[u8], message: &[u8], wanted: usize) -> [u8; 32] {
    let mut tag = [0; 32];
    assert_eq!(hmac_sha256_raw(key, message, wanted, &mut tag), 0);
    tag
}

/// What a rival does with its tag where less of it is wanted.
fn cut(mut tag: [u8; 32]) -> [u8; 32] {
    tag[SHORTEST_TAG..].fill(0);
    tag
}

fn message(length: usize) -> Vec<u8> {
    (0..length).map(|i| (i * 167 + 13) as u8).collect()
}

fn print_heading() {
    println!("Ratios: the rival's time / our time. 1.00 is level, above it ours is faster.");
    println!("Each time is the minimum over many short rounds, contenders taking turns.");
    println!("  portable C  benches/rival/sha256.c by cc -O3");
    println!("  libcrypto   its one-shot calls SHA256 and HMAC");
    println!("  limit       its low-level calls, by the processor's SHA instructions if any");
    println!("  plain Rust  the textbook code of src/plain");
    println!();
    print!("{:<22}{:>8}", "call", "message");
    for rival in RIVALS {
        print!("{rival:>12}");
    }
    println!();
}

fn print_case(call: &str, label: &str, contenders: &[Contender<'_, [u8; 32]>; 5]) {
    let expected = contenders[0]();
    for contender in contenders {
        assert_eq!(contender(), expected, "contenders disagree");
    }
    let [ours, rivals @ ..] = minimum_times(ALL_ROUNDS, contenders);
    print!("{call:<22}{label:>8}");
    for time in rivals {
        print!("{:>12.2}", time / ours);
    }
    println!();
}

fn main() {
    print_heading();
    for (label, length) in SHA256_LENGTHS {
        let message = message(length);
        print_case(
            "SHA-256",
            label,
            &[
                &|| proved_sha256(black_box(&message)),
                &|| rival::sha256(black_box(&message)),
                &|| libcrypto::sha256(black_box(&message)),
                &|| limit::sha256(black_box(&message)),
                &|| plain::sha256(black_box(&message)),
            ],
        );
    }
    for (label, length) in HMAC_LENGTHS {
        let message = message(length);
        print_case(
            "HMAC-SHA-256, 32 B key",
            label,
            &[
                &|| proved_hmac_sha256(&KEY, black_box(&message), LONGEST_TAG),
                &|| rival::hmac_sha256(&KEY, black_box(&message)),
                &|| libcrypto::hmac_sha256(&KEY, black_box(&message)),
                &|| limit::hmac_sha256(&KEY, black_box(&message)),
                &|| plain::hmac_sha256(&KEY, black_box(&message)),
            ],
        );
    }
    let (label, length) = HMAC_LENGTHS[0];
    let message = message(length);
    print_case(
        "HMAC-SHA-256, 16 B tag",
        label,
        &[
            &|| proved_hmac_sha256(&KEY, black_box(&message), SHORTEST_TAG),
            &|| cut(rival::hmac_sha256(&KEY, black_box(&message))),
            &|| cut(libcrypto::hmac_sha256(&KEY, black_box(&message))),
            &|| cut(limit::hmac_sha256(&KEY, black_box(&message))),
            &|| cut(plain::hmac_sha256(&KEY, black_box(&message))),
        ],
    );
}
