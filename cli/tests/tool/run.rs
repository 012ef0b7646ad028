//! One run of the tool.

use std::ffi::OsStr;
use std::process::{Command, Output, Stdio};

/// What a run printed and its exit status.
#[derive(Debug)]
pub struct Run {
    pub out: String,
    pub error: String,
    pub status: Option<i32>,
}

const TOOL: &str = env!("CARGO_BIN_EXE_pahyndoi");

pub fn command<S: AsRef<OsStr>>(arguments: &[S]) -> Command {
    let mut command = Command::new(TOOL);
    command.args(arguments).stdin(Stdio::null());
    command
}

pub fn run<S: AsRef<OsStr>>(arguments: &[S]) -> Run {
    command(arguments).output().expect("the tool runs").into()
}

/// A run that a shell starts by this script, in which "$@" is the tool and its
/// arguments.
pub fn run_by<S: AsRef<OsStr>>(script: &str, arguments: &[S]) -> Run {
    let mut shell = Command::new("sh");
    shell.args(["-c", script, "sh", TOOL]).args(arguments);
    let output = shell.stdin(Stdio::null()).output();
    output.expect("a shell runs").into()
}

impl From<Output> for Run {
    fn from(output: Output) -> Run {
        Run {
            out: String::from_utf8(output.stdout).expect("UTF-8"),
            error: String::from_utf8(output.stderr).expect("UTF-8"),
            status: output.status.code(),
        }
    }
}

impl Run {
    /// The output of a run that ended so and printed no error.
    pub fn ended(self, status: i32) -> String {
        assert_eq!((self.status, &*self.error), (Some(status), ""), "{self:?}");
        self.out
    }

    /// The error of a run that failed and printed nothing else.
    pub fn failed(self) -> String {
        assert_eq!((self.status, &*self.out), (Some(2), ""), "{self:?}");
        self.error
    }
}

/// The text with its lines joined to one.
pub fn joined(text: &str) -> String {
    text.split_whitespace().collect::<Vec<_>>().join(" ")
}

pub fn assert_narrow(text: &str) {
    for line in text.lines() {
        assert!(line.chars().count() <= 80, "{line}");
    }
}
