//! Which command the arguments name.

use std::ffi::OsString;
use std::io::Write;

use super::Status;
use super::arguments::{ask_for_help, is_help};
use super::failure::Failure;
use super::text::shown;

pub type Run = fn(&[OsString], &mut dyn Write) -> Result<Status, Failure>;

pub enum Command {
    Alone(Run, &'static str),
    /// One that is followed by a command of its own.
    Group(Commands),
    /// One that is followed by the names of a command beside it.
    Help,
}

/// The commands of the tool, or of one of its commands.
pub struct Commands {
    /// The command whose own they are.
    pub of: Option<&'static str>,
    pub help: &'static str,
    pub each: &'static [(&'static str, Command)],
}

impl Commands {
    /// Runs the command that the arguments name.
    pub fn run(&self, arguments: &[OsString], out: &mut dyn Write) -> Result<Status, Failure> {
        let Some((first, rest)) = arguments.split_first() else {
            return Err(self.missing());
        };
        if is_help(first) {
            return print(out, self.help);
        }
        match self.named(first)? {
            Command::Group(commands) => commands.run(rest, out),
            Command::Alone(_, help) if ask_for_help(rest) => print(out, help),
            Command::Alone(run, _) => run(rest, out),
            Command::Help => print(out, self.help_of(rest)?),
        }
    }

    /// The help of the command that the names lead to.
    fn help_of(&self, names: &[OsString]) -> Result<&'static str, Failure> {
        let (first, rest) = match names {
            [first, rest @ ..] if !is_help(first) => (first, rest),
            _ => return Ok(self.help),
        };
        match (self.named(first)?, rest) {
            (Command::Group(commands), _) => commands.help_of(rest),
            (Command::Help, _) => self.help_of(rest),
            (Command::Alone(..), [more, ..]) if !is_help(more) => Err(self.too_much(more)),
            (Command::Alone(_, help), _) => Ok(help),
        }
    }

    fn named(&self, name: &OsString) -> Result<&Command, Failure> {
        let mut each = self.each.iter();
        let found = each.find(|(known, _)| name == known);
        let command = found.map(|(_, command)| command);
        command.ok_or_else(|| self.unknown(name))
    }

    fn missing(&self) -> Failure {
        let message = match self.of {
            Some(name) => format!("{name} needs a command behind it"),
            None => "no command is given".to_string(),
        };
        Failure::usage(self.of, message)
    }

    fn unknown(&self, name: &OsString) -> Failure {
        let of = self.of.map_or(String::new(), |name| format!("{name} "));
        Failure::usage(self.of, format!("unknown command '{of}{}'", shown(name)))
    }

    fn too_much(&self, name: &OsString) -> Failure {
        Failure::usage(self.of, format!("'{}' is too much", shown(name)))
    }
}

fn print(out: &mut dyn Write, text: &str) -> Result<Status, Failure> {
    out.write_all(text.as_bytes())?;
    Ok(Status::Done)
}
