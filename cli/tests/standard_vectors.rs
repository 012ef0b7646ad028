//! The standards' test vectors, put to the proved functions and to the plain
//! Rust ones. `vectors/README.md` names their sources.

#[path = "common/records.rs"]
mod records;

use pahyndoi::{model, plain};
use records::{bytes, message, records};

type Sha256 = fn(&[u8]) -> [u8; 32];
type HmacSha256 = fn(&[u8], &[u8], usize) -> [u8; 32];

fn sha256_implementations() -> [(&'static str, Sha256); 2] {
    let proved: Sha256 = |message| pahyndoi::sha256(message).expect("accepted");
    [("proved", proved), ("plain", plain::sha256)]
}

fn hmac_sha256_implementations() -> [(&'static str, HmacSha256); 2] {
    let proved: HmacSha256 =
        |key, message, wanted| pahyndoi::hmac_sha256(key, message, wanted).expect("accepted");
    let of_the_model: HmacSha256 = |key, message, wanted| {
        let (refusal, tag) = model::hmac_sha256(model::plain_hmac, key, message, wanted);
        assert_eq!(refusal, 0, "accepted");
        tag
    };
    [("proved", proved), ("model", of_the_model)]
}

fn run_sha256_file(text: &str, count: usize) {
    let records = records(text, "MD");
    assert_eq!(records.len(), count, "records in the file");
    for record in records {
        let message = message(&record);
        for (name, sha256) in sha256_implementations() {
            let digest = sha256(&message);
            assert_eq!(
                digest[..],
                bytes(&record, "MD"),
                "{name}, Len = {}",
                record["Len"]
            );
        }
    }
}

#[test]
fn cavp_short_messages() {
    run_sha256_file(include_str!("vectors/SHA256ShortMsg.rsp"), 65);
}

#[test]
fn cavp_long_messages() {
    run_sha256_file(include_str!("vectors/SHA256LongMsg.rsp"), 64);
}

#[test]
fn nist_examples_of_a_repeated_byte() {
    let records = records(include_str!("vectors/nist-examples-repeated.txt"), "MD");
    assert_eq!(records.len(), 10, "records in the file");
    for record in records {
        let count = record["Repeat"].parse().expect("a number");
        let message = bytes(&record, "Byte").repeat(count);
        for (name, sha256) in sha256_implementations() {
            let digest = sha256(&message);
            assert_eq!(digest[..], bytes(&record, "MD"), "{name}, Repeat = {count}");
        }
    }
}

/// One checkpoint of the Monte Carlo test of NIST's SHA validation system: a
/// thousand digests, each of the three before it.
fn monte_carlo_checkpoint(sha256: Sha256, seed: &[u8]) -> Vec<u8> {
    let mut last_three = [seed, seed, seed].concat();
    for _ in 0..1000 {
        let digest = sha256(&last_three);
        last_three.drain(..digest.len());
        last_three.extend(digest);
    }
    last_three.split_off(2 * seed.len())
}

#[test]
fn cavp_monte_carlo() {
    let text = include_str!("vectors/SHA256Monte.rsp");
    let seed_record = &records(text, "Seed")[0];
    let checkpoints = records(text, "MD");
    assert_eq!(checkpoints.len(), 100, "records in the file");
    for (name, sha256) in sha256_implementations() {
        let mut seed = bytes(seed_record, "Seed");
        for record in &checkpoints {
            seed = monte_carlo_checkpoint(sha256, &seed);
            assert_eq!(
                seed,
                bytes(record, "MD"),
                "{name}, COUNT = {}",
                record["COUNT"]
            );
        }
    }
}

/// Asks for so many bytes of each tag of the file, and expects those that stand
/// there, with zeros behind them.
fn run_hmac_file(text: &str, count: usize, tag_length: usize, wanted: usize) {
    let records = records(text, "MD");
    assert_eq!(records.len(), count, "records in the file");
    for record in records {
        let (key, given) = (bytes(&record, "Key"), bytes(&record, "MD"));
        assert_eq!(given.len(), tag_length, "bytes of the tag in the file");
        let mut expected = [0; 32];
        expected[..wanted].copy_from_slice(&given[..wanted]);
        for (name, hmac_sha256) in hmac_sha256_implementations() {
            let tag = hmac_sha256(&key, &message(&record), wanted);
            let case = record["Msg"];
            assert_eq!(tag, expected, "{name}, Msg = {case}, {wanted} wanted");
        }
    }
}

const WHOLE_TAGS: &str = include_str!("vectors/rfc-4231-sha256.txt");

#[test]
fn rfc_4231_whole_tags() {
    run_hmac_file(WHOLE_TAGS, 6, 32, 32);
}

#[test]
fn rfc_4231_fronts_of_whole_tags() {
    for wanted in 16..32 {
        run_hmac_file(WHOLE_TAGS, 6, 32, wanted);
    }
}

/// The RFC truncates the tag of case 5 to 128 bits.
#[test]
fn rfc_4231_case_5_truncated() {
    let text = include_str!("vectors/rfc-4231-sha256-case-5.txt");
    run_hmac_file(text, 1, 16, 16);
}
