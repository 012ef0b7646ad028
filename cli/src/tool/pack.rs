//! `pahyndoi pack`: header and key bytes become a key store.

use std::ffi::OsString;
use std::io::Write;
use std::path::Path;

use super::Status;
use super::arguments::{Arguments, Syntax};
use super::failure::Failure;
use super::files;
use super::keys;
use super::set::{DATA_LIMITS, LOG_CAPACITIES, Set, TAG_LENGTHS};
use super::store::{CHUNKS, Header, PHASES, RATCHET};
use super::text::{counted, grouped, shown};

const SYNTAX: Syntax = Syntax {
    command: "pack",
    valued: &[
        "--id",
        "--phases",
        "--chunks",
        "--ratchet",
        "--keys",
        "--out",
        "--tag-length",
        "--data-limit",
        "--log-capacity",
    ],
    switches: &["--force"],
    operands: 0,
};

pub fn run(arguments: &[OsString], out: &mut dyn Write) -> Result<Status, Failure> {
    let arguments = SYNTAX.read(arguments)?;
    let header = header(&arguments)?;
    let store_path = arguments.required_path("--out")?;
    let keys = keys_beside(store_path, &arguments, header.chunks as usize)?;
    let store = [header.to_bytes(), keys].concat();
    files::write(store_path, &store, arguments.has("--force"))?;
    writeln!(
        out,
        "{}: {}; {}, {} for up to {}{}.",
        shown(store_path),
        counted(store.len(), "byte"),
        counted(usize::from(header.phases), "phase"),
        counted(header.chunks as usize, "chunk"),
        counted(header.keys_of(header.chunks as usize), "item"),
        header
            .own_set
            .map_or(String::new(), |set| format!("; {set}")),
    )?;
    Ok(Status::Done)
}

/// The key bytes of so many chunks, which the store is not to be written over:
/// the file that was named, or that they came from through a pipe.
fn keys_beside(store: &Path, arguments: &Arguments, chunks: usize) -> Result<Vec<u8>, Failure> {
    let path = arguments.required_path("--keys")?;
    let is_left = |what| Failure::file(store, format!("{what}, and is left as it is"));
    if files::are_same(path, store) {
        return Err(is_left("is the key file itself"));
    }
    let keys = files::read(path)?;
    keys::check(&keys, chunks).map_err(|reason| Failure::file(path, reason))?;
    match files::holds(store, &keys) {
        true => Err(is_left("has the very bytes of the keys")),
        false => Ok(keys),
    }
}

fn header(arguments: &Arguments) -> Result<Header, Failure> {
    Ok(Header {
        id: id(arguments)?,
        phases: arguments.required_number("--phases", PHASES)? as u8,
        chunks: arguments.required_number("--chunks", CHUNKS)?,
        ratchet: arguments.required_number("--ratchet", RATCHET)?,
        own_set: own_set(arguments)?,
    })
}

/// The set that the store carries, if a flag names a part of it; what no flag
/// names is as in kind 1.
fn own_set(arguments: &Arguments) -> Result<Option<Set>, Failure> {
    let tag_length = arguments.optional_number("--tag-length", TAG_LENGTHS)?;
    let data_limit = arguments.optional_number("--data-limit", DATA_LIMITS)?;
    let log_capacity = arguments.optional_number("--log-capacity", LOG_CAPACITIES)?;
    if tag_length.or(data_limit).or(log_capacity).is_none() {
        return Ok(None);
    }
    let common = Set::COMMON;
    let set = Set {
        tag_length: tag_length.map_or(common.tag_length, |length| length as u8),
        data_limit: data_limit.unwrap_or(common.data_limit),
        log_capacity: log_capacity.unwrap_or(common.log_capacity),
    };
    match set.log_takes_data() {
        true => Ok(Some(set)),
        false => {
            let [low, high] =
                [set.data_limit, *LOG_CAPACITIES.end()].map(|end| grouped(end.into()));
            let wanted = format!("a number from {low}, the --data-limit, to {high}");
            Err(arguments.unwanted("--log-capacity", &wanted))
        }
    }
}

/// The 8 bytes of 16 hexadecimal digits.
fn id(arguments: &Arguments) -> Result<[u8; 8], Failure> {
    let wanted = "16 hexadecimal digits, for 8 bytes, such as 736d616c6c203037";
    let text = arguments.required("--id")?.to_str().unwrap_or_default();
    let digits = text.len() == 16 && text.bytes().all(|byte| byte.is_ascii_hexdigit());
    let number = u64::from_str_radix(text, 16).ok().filter(|_| digits);
    match number {
        Some(number) => Ok(number.to_be_bytes()),
        None => Err(arguments.unwanted("--id", wanted)),
    }
}
