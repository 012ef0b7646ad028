//! `pahyndoi plan`: what a card needs before it is packed.

mod counts;
mod ratchet;
mod table;

use super::commands::{Command, Commands};
use super::help;

pub const COMMANDS: Commands = Commands {
    of: Some("plan"),
    help: help::PLAN,
    each: &[("ratchet", Command::Alone(ratchet::run, help::PLAN_RATCHET))],
};
