//! `pahyndoi dump`: what a key store's header says, or the items of a seal
//! file as a table.

mod header;
mod seal;

use std::ffi::OsString;
use std::io::Write;

use super::Status;
use super::arguments::{Arguments, Syntax};
use super::failure::Failure;
use super::files;
use super::set::Set;
use super::store::{Header, is_store};

const SYNTAX: Syntax = Syntax {
    command: "dump",
    valued: &["--store"],
    switches: &["--json"],
    operands: 1,
};

pub fn run(arguments: &[OsString], out: &mut dyn Write) -> Result<Status, Failure> {
    let arguments = SYNTAX.read(arguments)?;
    let Some(path) = arguments.operand() else {
        return Err(arguments.wrong("a key store or a seal file is missing".to_string()));
    };
    let set = store_set(&arguments)?;
    let file = files::read(path)?;
    match (set, arguments.has("--json")) {
        (None, json) if is_store(&file) => header::dump(&file, json, out),
        (set, true) => seal::json(&file, set, out),
        (set, false) => seal::table(&file, set, out),
    }
}

/// The set of the store that is named, if one is.
fn store_set(arguments: &Arguments) -> Result<Option<Set>, Failure> {
    let Some(path) = arguments.path("--store") else {
        return Ok(None);
    };
    let header = Header::read(&files::read(path)?);
    let header = header.map_err(|wrong| Failure::file(path, format!("this store {wrong}")))?;
    Ok(Some(header.set()))
}
