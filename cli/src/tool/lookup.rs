//! `pahyndoi item`: which item sealed a byte, and what it sealed with it.

use std::ffi::OsString;
use std::io::Write;
use std::ops::RangeInclusive;

use pahyndoi::{Rejected, data_at, item_at};

use super::Status;
use super::arguments::Syntax;
use super::detail::{bytes_detail, detail};
use super::evidence::{self, Evidence};
use super::failure::Failure;
use super::found::{self, Found};
use super::json::Value;
use super::reading::Reading;
use super::refused::{self, Refused};
use super::set::LOG_CAPACITIES;
use super::store::PHASES;

const SYNTAX: Syntax = Syntax {
    command: "item",
    valued: &[
        "--phase",
        "--offset",
        "--device",
        "--auditor",
        "--logs",
        "--lengths",
        "--seal",
    ],
    switches: &["--json"],
    operands: 1,
};

/// The rule of a byte that no log has.
const NO_SUCH_BYTE: u32 = 24;
/// Those that the largest log has.
const OFFSETS: RangeInclusive<u32> = 0..=*LOG_CAPACITIES.end() - 1;

pub fn run(arguments: &[OsString], out: &mut dyn Write) -> Result<Status, Failure> {
    let arguments = SYNTAX.read(arguments)?;
    let phase = arguments.judged_number("--phase", u8::MAX.into(), &PHASES)? as u8;
    let offset = arguments.judged_number("--offset", u32::MAX, &OFFSETS)?;
    let paths = evidence::paths(&arguments)?;
    let evidence = Evidence::read(&paths)?;
    let reading = Reading::of(evidence.material());
    let lookup = Lookup::of(&reading, phase, offset);
    match arguments.has("--json") {
        true => writeln!(out, "{}", lookup.json(evidence::names(&paths)))?,
        false => out.write_all(lookup.words().as_bytes())?,
    }
    Ok(lookup.status())
}

struct Lookup<'a> {
    phase: u8,
    offset: u32,
    answer: Result<Found<'a>, Refused>,
}

impl<'a> Lookup<'a> {
    fn of(reading: &'a Reading, phase: u8, offset: u32) -> Lookup<'a> {
        let answer = match item_at(&reading.material, phase, offset) {
            Ok(number) => {
                let item = &reading.items[number as usize];
                Ok(Found {
                    item,
                    area: item.area().expect("an entry"),
                    data: data_at(&reading.material, phase, offset),
                    offset,
                })
            }
            Err(rejected) => Err(Refused {
                rejected,
                detail: refusal_detail(reading, &rejected, phase),
            }),
        };
        Lookup {
            phase,
            offset,
            answer,
        }
    }

    fn status(&self) -> Status {
        match self.answer {
            Ok(_) => Status::Done,
            Err(_) => Status::Refused,
        }
    }

    fn words(&self) -> String {
        match &self.answer {
            Ok(found) => found.words(),
            Err(refused) => refused.words(""),
        }
    }

    /// The item's number as the call answers it: of the one found, or of the
    /// one that the audit names.
    fn item(&self) -> Option<u64> {
        match &self.answer {
            Ok(found) => Some(found.item.number as u64),
            Err(refused) => refused.rejected.item.map(u64::from),
        }
    }

    /// One object. Members that do not apply are null.
    fn json(&self, files: Vec<(&'static str, Value)>) -> Value {
        let refused = self.answer.as_ref().err();
        let mut members = vec![("verdict", refused::verdict(refused))];
        members.extend(refused::members(refused, self.item()));
        members.extend([
            ("phase", Value::Number(self.phase.into())),
            ("offset", Value::Number(self.offset.into())),
        ]);
        members.extend(found::members(self.answer.as_ref().ok()));
        members.push(("files", Value::Object(files)));
        Value::Object(members)
    }
}

fn refusal_detail(reading: &Reading, rejected: &Rejected, phase: u8) -> Option<String> {
    match rejected.refusal.0 {
        NO_SUCH_BYTE => bytes_detail(reading, phase),
        _ => detail(reading, rejected),
    }
}
