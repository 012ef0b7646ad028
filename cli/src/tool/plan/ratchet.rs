//! `pahyndoi plan ratchet`: the least ratchet with which a card lasts.

use std::ffi::OsString;
use std::io::Write;

use pahyndoi::{Rejected, least_ratchet};

use super::super::Status;
use super::super::arguments::Syntax;
use super::super::failure::Failure;
use super::super::json::Value;
use super::super::refused::{self, Refused};
use super::super::store::{CHUNKS, RATCHET};
use super::super::text::{counted, grouped, wrapped};
use super::counts::{COUNTS, Plan};
use super::table::Table;

const SYNTAX: Syntax = Syntax {
    command: "plan ratchet",
    valued: &["--chunks"],
    switches: &["--json"],
    // The proved call says when there are too many.
    operands: usize::MAX,
};

pub fn run(arguments: &[OsString], out: &mut dyn Write) -> Result<Status, Failure> {
    let arguments = SYNTAX.read(arguments)?;
    let planned = Planned::of(Plan {
        counts: arguments.judged_numbers("COUNT", &COUNTS)?,
        chunks: arguments.judged_number("--chunks", u32::MAX, &CHUNKS)?,
    });
    match arguments.has("--json") {
        true => writeln!(out, "{}", planned.json())?,
        false => out.write_all(planned.words().as_bytes())?,
    }
    Ok(planned.status())
}

struct Planned {
    plan: Plan,
    /// The least ratchet, if with any the card lasts.
    answer: Result<Option<u32>, Refused>,
}

impl Planned {
    fn of(plan: Plan) -> Planned {
        let answer = least_ratchet(&plan.counts, plan.chunks).map_err(|refusal| Refused {
            rejected: Rejected {
                refusal,
                item: None,
            },
            detail: Some(plan.out_of_range()),
        });
        Planned { plan, answer }
    }

    fn status(&self) -> Status {
        match self.answer {
            Ok(Some(_)) => Status::Done,
            Ok(None) | Err(_) => Status::Refused,
        }
    }

    fn words(&self) -> String {
        let mut text = match &self.answer {
            Ok(Some(ratchet)) => wrapped("", &found(&self.plan, *ratchet)),
            Ok(None) => none(&self.plan),
            Err(refused) => return refused.words(""),
        };
        if let Some(detail) = self.plan.beyond_the_logs() {
            text += &wrapped("  ", &detail);
        }
        match self.table() {
            Some(table) => format!("{text}\n{}", table.words()),
            None => text,
        }
    }

    /// What is out of range, or that the logs can't take the entries.
    fn detail(&self) -> Option<String> {
        match &self.answer {
            Ok(_) => self.plan.beyond_the_logs(),
            Err(refused) => refused.detail.clone(),
        }
    }

    /// None of a plan that is refused: its numbers may be beyond all columns.
    fn table(&self) -> Option<Table<'_>> {
        let answer = self.answer.as_ref().ok()?;
        Some(Table {
            plan: &self.plan,
            answer: *answer,
        })
    }

    /// One object. Members that do not apply are null.
    fn json(&self) -> Value {
        let counts = self.plan.counts.iter().map(|count| (*count).into());
        let mut members = vec![("verdict", self.verdict())];
        let [rule, reason, _] = refused::members_without_item(self.answer.as_ref().err());
        let detail = self.detail();
        members.extend([
            rule,
            reason,
            ("detail", detail.as_deref().map_or(Value::Null, Value::text)),
            ("chunks", Value::Number(self.plan.chunks.into())),
            ("counts", Value::Array(counts.map(Value::Number).collect())),
        ]);
        members.extend(self.answer_members());
        Value::Object(members)
    }

    fn answer_members(&self) -> [(&'static str, Value); 5] {
        let ratchet = *self.answer.as_ref().unwrap_or(&None);
        let taken = ratchet.map(|ratchet| self.plan.taken(ratchet));
        let left = taken.map(|taken| u64::from(self.plan.chunks) - taken);
        let table = self.table().map(|table| table.json());
        let card = match self.answer {
            Ok(None) => self.plan.smallest_card(),
            _ => None,
        };
        [
            ("ratchet", Value::number(ratchet)),
            ("taken", Value::number(taken)),
            ("left", Value::number(left)),
            ("table", table.unwrap_or(Value::Null)),
            ("card", Value::number(card)),
        ]
    }

    fn verdict(&self) -> Value {
        Value::text(match self.answer {
            Ok(Some(_)) => "found",
            Ok(None) => "none",
            Err(_) => "refused",
        })
    }
}

fn found(plan: &Plan, ratchet: u32) -> String {
    let taken = plan.taken(ratchet);
    let answer = match plan.counts.len() {
        0 => format!("No counts are given, and an empty list needs N = {ratchet}"),
        _ => format!("The least N that lasts is {ratchet}"),
    };
    format!(
        "{answer}: it takes {} of the card's {} and leaves {}.",
        grouped(taken),
        counted(plan.chunks as usize, "chunk"),
        grouped(u64::from(plan.chunks) - taken)
    )
}

fn none(plan: &Plan) -> String {
    let most = *RATCHET.end();
    let taken = plan.taken(most);
    let answer = format!(
        "NONE LASTS: even N = {most} takes {}, {} more than the card has.",
        counted(taken as usize, "chunk"),
        grouped(taken - u64::from(plan.chunks))
    );
    wrapped("", &answer) + &wrapped("  ", &plan.other_card())
}
