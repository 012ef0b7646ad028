//! Why a command could not do its work.

use std::fmt;
use std::io;
use std::path::Path;

use super::text::shown;

#[derive(Debug)]
pub enum Failure {
    /// The arguments are wrong, those of a command or of the tool.
    Usage {
        command: Option<&'static str>,
        message: String,
    },
    /// A file can't be read, can't be written or is not what was asked for.
    File(String),
    /// The standard output can't be written.
    Output(io::Error),
}

impl Failure {
    pub fn usage(command: Option<&'static str>, message: impl Into<String>) -> Failure {
        Failure::Usage {
            command,
            message: message.into(),
        }
    }

    pub fn file(path: &Path, reason: impl fmt::Display) -> Failure {
        Failure::File(format!("{}: {reason}", shown(path)))
    }
}

impl From<io::Error> for Failure {
    fn from(error: io::Error) -> Failure {
        Failure::Output(error)
    }
}

/// One line for the reader and, for wrong arguments, a second with a hint.
impl fmt::Display for Failure {
    fn fmt(&self, formatter: &mut fmt::Formatter<'_>) -> fmt::Result {
        match self {
            Failure::Usage { command, message } => {
                let of_command = command.map_or(String::new(), |name| format!("{name} "));
                writeln!(formatter, "pahyndoi: {message}")?;
                writeln!(formatter, "Try 'pahyndoi {of_command}--help'.")
            }
            Failure::File(message) => writeln!(formatter, "pahyndoi: {message}"),
            Failure::Output(error) => {
                writeln!(
                    formatter,
                    "pahyndoi: cannot write to standard output: {error}"
                )
            }
        }
    }
}
