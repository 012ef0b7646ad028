//! The commands of the tool and what they share.

mod arguments;
mod audit;
mod closed;
mod commands;
mod coverage;
mod demo;
mod detail;
mod due;
mod dump;
mod evidence;
mod excerpt;
pub mod failure;
mod files;
mod found;
mod help;
mod item;
mod json;
mod keys;
mod lookup;
pub mod output;
mod pack;
mod picture;
mod plan;
mod reading;
mod refused;
mod set;
pub mod signals;
mod store;
mod text;
mod verdict;
mod writing;

use std::ffi::OsString;
use std::io::Write;

use arguments::is_version;
use commands::{Command, Commands};
use failure::Failure;

/// The exit status of a command that did its work.
#[derive(Clone, Copy, Debug, PartialEq, Eq)]
pub enum Status {
    /// Done; of an audit: accepted; of a lookup or a plan: found.
    Done = 0,
    /// An audit, a lookup or a plan refused, no ratchet that lasts, or a dumped
    /// file that is damaged.
    Refused = 1,
}

const COMMANDS: Commands = Commands {
    of: None,
    help: help::TOOL,
    each: &[
        ("demo", Command::Alone(demo::run, help::DEMO)),
        ("audit", Command::Alone(audit::run, help::AUDIT)),
        ("item", Command::Alone(lookup::run, help::ITEM)),
        ("dump", Command::Alone(dump::run, help::DUMP)),
        ("pack", Command::Alone(pack::run, help::PACK)),
        ("plan", Command::Group(plan::COMMANDS)),
        ("help", Command::Help),
    ],
};

/// Runs the command that the arguments name, or prints the version.
pub fn run(arguments: &[OsString], out: &mut dyn Write) -> Result<Status, Failure> {
    if arguments.first().is_some_and(is_version) {
        writeln!(out, "pahyndoi {}", env!("CARGO_PKG_VERSION"))?;
        return Ok(Status::Done);
    }
    COMMANDS.run(arguments, out)
}
