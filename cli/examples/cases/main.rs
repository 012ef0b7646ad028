//! Writes the script of `crates/cases` and what it prints.
//!
//!     cargo run --example cases -- script  > ../crates/cases/stdin
//!     cargo run --example cases -- answers < ../crates/cases/stdin > ../crates/cases/stdout

mod interpreter;
mod record;
mod script;

use std::env;
use std::io::{self, Read, Write};
use std::process::ExitCode;

fn main() -> ExitCode {
    let done = match env::args().nth(1).as_deref() {
        Some("script") => io::stdout().write_all(&script::script()),
        Some("answers") => print_answers(),
        _ => Err(io::Error::other("usage: cases script | answers")),
    };
    match done {
        Ok(()) => ExitCode::SUCCESS,
        Err(error) => {
            eprintln!("{error}");
            ExitCode::FAILURE
        }
    }
}

/// Runs the script on standard input through the model.
fn print_answers() -> io::Result<()> {
    let mut script = Vec::new();
    io::stdin().read_to_end(&mut script)?;
    io::stdout().write_all(interpreter::run(&script).as_bytes())
}
