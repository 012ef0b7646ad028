//! The auditor's tool.

mod tool;

use std::env;
use std::ffi::OsString;
use std::io::{self, Write};
use std::process::ExitCode;

use tool::failure::Failure;
use tool::{output, signals};

/// Bad usage, an unreadable file or an output that can't be written.
const FAILED: u8 = 2;

fn main() -> ExitCode {
    signals::ignore_size_limit();
    let arguments: Vec<OsString> = env::args_os().skip(1).collect();
    match answer(&arguments) {
        Ok(status) => ExitCode::from(status as u8),
        Err(failure) => {
            // A closed standard error leaves nothing else to do.
            let _ = write!(io::stderr(), "{failure}");
            ExitCode::from(FAILED)
        }
    }
}

fn answer(arguments: &[OsString]) -> Result<tool::Status, Failure> {
    let mut out = output::stdout()?;
    let status = tool::run(arguments, &mut out)?;
    out.flush()?;
    Ok(status)
}
