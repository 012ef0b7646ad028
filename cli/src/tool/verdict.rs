//! The audit's answer, in words and for machines.

use pahyndoi::{Rejected, audit};

use super::Status;
use super::detail::detail;
use super::item::Item;
use super::json::Value;
use super::reading::Reading;
use super::refused::{self, Refused};
use super::text::{counted, wrapped};

/// How many restarts are told of.
const RESTARTS_TOLD: usize = 6;

pub struct Verdict {
    answer: Result<Accepted, Refused>,
}

struct Accepted {
    /// The number of items.
    items: u64,
    restarts: Vec<Restart>,
}

/// A restart item: where power was lost.
struct Restart {
    item: usize,
    chunk: u32,
    /// How many items the chunk before has.
    number: u32,
}

impl Verdict {
    pub fn of(reading: &Reading) -> Verdict {
        let answer = match audit(&reading.material) {
            Ok(items) => Ok(Accepted {
                items,
                restarts: reading.items.iter().filter_map(Restart::of).collect(),
            }),
            Err(rejected) => Err(Refused {
                rejected,
                detail: detail(reading, &rejected),
            }),
        };
        Verdict { answer }
    }

    pub fn status(&self) -> Status {
        match self.answer {
            Ok(_) => Status::Done,
            Err(_) => Status::Refused,
        }
    }

    pub fn rejected(&self) -> Option<Rejected> {
        let refused = self.answer.as_ref().err();
        refused.map(|refused| refused.rejected)
    }

    pub fn refused_item(&self) -> Option<u32> {
        self.rejected().and_then(|rejected| rejected.item)
    }

    /// In lines of at most 80 columns behind the indent.
    pub fn words(&self, indent: &str) -> String {
        match &self.answer {
            Ok(accepted) => accepted.words(indent),
            Err(refused) => refused.words(indent),
        }
    }

    /// One object. Members that do not apply are null.
    pub fn json(&self, files: Vec<(&'static str, Value)>) -> Value {
        let refused = self.answer.as_ref().err();
        let accepted = self.answer.as_ref().ok();
        let mut members = vec![
            ("verdict", refused::verdict(refused)),
            (
                "items",
                Value::number(accepted.map(|accepted| accepted.items)),
            ),
            (
                "restarts",
                accepted.map_or(Value::Null, Accepted::restarts_json),
            ),
        ];
        let item = self.refused_item().map(u64::from);
        members.extend(refused::members(refused, item));
        members.push(("files", Value::Object(files)));
        Value::Object(members)
    }
}

impl Accepted {
    fn words(&self, indent: &str) -> String {
        let items = counted(self.items as usize, "item");
        let mut text = wrapped(indent, &format!("ACCEPTED: {items}."));
        if !self.restarts.is_empty() {
            text += &wrapped(&format!("{indent}  "), &self.restarts_sentence());
        }
        text
    }

    fn restarts_sentence(&self) -> String {
        let count = self.restarts.len();
        let told = self.restarts.iter().take(RESTARTS_TOLD);
        let told: Vec<String> = told.map(Restart::words).collect();
        let more = match count - told.len() {
            0 => String::new(),
            more => format!(" and {more} more"),
        };
        format!(
            "{}, as after a loss of power: {}{more}.",
            counted(count, "restart"),
            told.join(", ")
        )
    }

    fn restarts_json(&self) -> Value {
        Value::Array(self.restarts.iter().map(Restart::json).collect())
    }
}

impl Restart {
    fn of(item: &Item) -> Option<Restart> {
        let number = item.restart()?;
        Some(Restart {
            item: item.number,
            chunk: item.chunk,
            number,
        })
    }

    /// Of the chunk before, which lost its keys.
    fn words(&self) -> String {
        let Restart {
            item,
            chunk,
            number,
        } = self;
        let items = counted(*number as usize, "item");
        format!(
            "item {item} (chunk {} had {items})",
            chunk.saturating_sub(1)
        )
    }

    fn json(&self) -> Value {
        Value::Object(vec![
            ("item", Value::Number(self.item as u64)),
            ("chunk", Value::Number(self.chunk.into())),
            ("number", Value::Number(self.number.into())),
        ])
    }
}
