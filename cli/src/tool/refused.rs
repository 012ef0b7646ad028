//! A refusal, in words and for machines.

use pahyndoi::Rejected;

use super::json::Value;
use super::text::wrapped;

pub struct Refused {
    /// What the proved call answered; nothing else decides.
    pub rejected: Rejected,
    /// What a reader of the material finds at the place of the refusal.
    pub detail: Option<String>,
}

impl Refused {
    /// In lines of at most 80 columns behind the indent.
    pub fn words(&self, indent: &str) -> String {
        let mut text = wrapped(indent, &sentence(&self.rejected));
        if let Some(detail) = &self.detail {
            text += &wrapped(&format!("{indent}  "), detail);
        }
        text
    }
}

fn sentence(rejected: &Rejected) -> String {
    let (rule, meaning) = (rejected.refusal.0, rejected.refusal.meaning());
    match rejected.item {
        Some(item) => format!("REFUSED by rule {rule} at item {item}: {meaning}."),
        None => format!("REFUSED by rule {rule}: {meaning}."),
    }
}

pub fn verdict(refused: Option<&Refused>) -> Value {
    Value::text(match refused {
        None => "accepted",
        Some(_) => "refused",
    })
}

/// The rule, the item that the answer names, the rule's words and the detail,
/// null where they do not apply.
pub fn members(refused: Option<&Refused>, item: Option<u64>) -> [(&'static str, Value); 4] {
    let [rule, reason, detail] = members_without_item(refused);
    [rule, ("item", Value::number(item)), reason, detail]
}

/// As of an answer that names no item.
pub fn members_without_item(refused: Option<&Refused>) -> [(&'static str, Value); 3] {
    let rule = refused.map(|refused| refused.rejected.refusal);
    let detail = refused.and_then(|refused| refused.detail.as_deref());
    let text = |text: Option<&str>| text.map_or(Value::Null, Value::text);
    [
        ("rule", Value::number(rule.map(|rule| rule.0))),
        ("reason", text(rule.map(|rule| rule.meaning()))),
        ("detail", text(detail)),
    ]
}
