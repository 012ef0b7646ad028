//! `pahyndoi audit`: the verdict about what files hold.

use std::ffi::OsString;
use std::io::Write;

use pahyndoi::Rejected;

use super::Status;
use super::arguments::Syntax;
use super::evidence::{self, Evidence};
use super::failure::Failure;
use super::picture;
use super::reading::Reading;
use super::verdict::Verdict;

const SYNTAX: Syntax = Syntax {
    command: "audit",
    valued: &["--device", "--auditor", "--logs", "--lengths", "--seal"],
    switches: &["--json", "--no-picture"],
    operands: 1,
};

pub fn run(arguments: &[OsString], out: &mut dyn Write) -> Result<Status, Failure> {
    let arguments = SYNTAX.read(arguments)?;
    let paths = evidence::paths(&arguments)?;
    let evidence = Evidence::read(&paths)?;
    let reading = Reading::of(evidence.material());
    let verdict = Verdict::of(&reading);
    if arguments.has("--json") {
        writeln!(out, "{}", verdict.json(evidence::names(&paths)))?;
        return Ok(verdict.status());
    }
    out.write_all(verdict.words("").as_bytes())?;
    if !arguments.has("--no-picture") {
        let picture = picture::draw(&reading, verdict.refused_item());
        write!(out, "\n{picture}{}", unchecked(&verdict))?;
    }
    Ok(verdict.status())
}

/// A picture shows all items that can be read; an audit stops at its refusal.
fn unchecked(verdict: &Verdict) -> String {
    match verdict.rejected() {
        Some(Rejected {
            item: Some(item), ..
        }) => format!("Items behind item {item} were not checked.\n"),
        Some(Rejected { refusal, .. }) if refusal.0 < 15 => "No item was checked.\n".to_string(),
        _ => String::new(),
    }
}
